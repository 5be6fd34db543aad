; A bounded buffer with any number of producers and consumers: can more slots be in use than there are?
;
; The buffer has n slots, and two semaphores: e counts the empty slots, f the full ones. A producer takes an empty
; slot (p of them are filling one) and then signals a full one; a consumer takes a full one (c of them are emptying
; one) and then signals an empty one. So p + f + c slots are in use.
; Source: Dijkstra, Cooperating sequential processes, 1965, section 4.3, without the buffer's own mutual exclusion.
(define-fun state ((n Int) (e Int) (f Int) (p Int) (c Int)) Bool
  (and (>= n 1) (>= e 0) (>= f 0) (>= p 0) (>= c 0)))
(define-fun start ((n Int) (e Int) (f Int) (p Int) (c Int)) Bool
  (and (>= n 1) (= e n) (= f 0) (= p 0) (= c 0)))
(define-fun bad ((n Int) (e Int) (f Int) (p Int) (c Int)) Bool
  (and (state n e f p c) (> (+ p f c) n)))
; The rounds, backwards. Each adds something, and so does each one after them: round k has the states in which k
; producers can come and overfill the buffer.
(echo "rounds")
(define-fun round1 ((n Int) (e Int) (f Int) (p Int) (c Int)) Bool
  (and (state n e f p c)
       (or (bad n e f p c)
           (and (>= e 1) (bad n (- e 1) f (+ p 1) c))     ; a producer comes
           (and (>= p 1) (bad n e (+ f 1) (- p 1) c))     ; a producer leaves
           (and (>= f 1) (bad n e (- f 1) p (+ c 1)))     ; a consumer comes
           (and (>= c 1) (bad n (+ e 1) f p (- c 1))))))  ; a consumer leaves
(define-fun bad1 ((n Int) (e Int) (f Int) (p Int) (c Int)) Bool
  (and (state n e f p c) (or (> (+ p f c) n) (and (>= e 1) (> (+ p f c 1) n)))))
(set-equal round1 bad)
(set-equal round1 bad1)
(define-fun round2 ((n Int) (e Int) (f Int) (p Int) (c Int)) Bool
  (and (state n e f p c)
       (or (bad1 n e f p c)
           (and (>= e 1) (bad1 n (- e 1) f (+ p 1) c))
           (and (>= p 1) (bad1 n e (+ f 1) (- p 1) c))
           (and (>= f 1) (bad1 n e (- f 1) p (+ c 1)))
           (and (>= c 1) (bad1 n (+ e 1) f p (- c 1))))))
(define-fun bad2 ((n Int) (e Int) (f Int) (p Int) (c Int)) Bool
  (and (state n e f p c)
       (or (> (+ p f c) n) (and (>= e 1) (> (+ p f c 1) n)) (and (>= e 2) (> (+ p f c 2) n)))))
(set-equal round2 bad1)
(set-equal round2 bad2)
; So one rule is taken any number of times at once: k producers come one after the other, each finding an empty slot.
; After that a round adds nothing, and no start is among the states.
(define-fun many ((n Int) (e Int) (f Int) (p Int) (c Int)) Bool
  (and (state n e f p c) (exists ((k Int)) (and (<= 0 k e) (bad n (- e k) f (+ p k) c)))))
(define-fun over ((n Int) (e Int) (f Int) (p Int) (c Int)) Bool
  (and (state n e f p c) (> (+ e p f c) n)))
(set-equal many over)
(define-fun last ((n Int) (e Int) (f Int) (p Int) (c Int)) Bool
  (and (state n e f p c)
       (or (over n e f p c)
           (and (>= e 1) (over n (- e 1) f (+ p 1) c))
           (and (>= p 1) (over n e (+ f 1) (- p 1) c))
           (and (>= f 1) (over n e (- f 1) p (+ c 1)))
           (and (>= c 1) (over n (+ e 1) f p (- c 1))))))
(set-equal last over)
(define-fun unsafe ((n Int) (e Int) (f Int) (p Int) (c Int)) Bool
  (and (start n e f p c) (over n e f p c)))
(set-empty unsafe)
; An invariant says the same without rounds: it holds at the start, no step leads out of it, and no bad state is in
; it.
(echo "invariant")
(define-fun inv ((n Int) (e Int) (f Int) (p Int) (c Int)) Bool
  (and (state n e f p c) (= (+ e f p c) n)))
(define-fun escape ((n Int) (e Int) (f Int) (p Int) (c Int)) Bool
  (and (inv n e f p c)
       (or (and (>= e 1) (not (inv n (- e 1) f (+ p 1) c)))
           (and (>= p 1) (not (inv n e (+ f 1) (- p 1) c)))
           (and (>= f 1) (not (inv n e (- f 1) p (+ c 1))))
           (and (>= c 1) (not (inv n (+ e 1) f p (- c 1)))))))
(set-subset start inv)
(set-empty escape)
(define-fun bad-inside ((n Int) (e Int) (f Int) (p Int) (c Int)) Bool
  (and (inv n e f p c) (bad n e f p c)))
(set-empty bad-inside)
; A slip: a consumer signals the empty slot when it comes, and not when it leaves. No start leads to a bad state in at
; most three steps, but some do in four. The least one:
(echo "slip")
(define-fun broken1 ((n Int) (e Int) (f Int) (p Int) (c Int)) Bool
  (and (state n e f p c)
       (or (bad n e f p c)
           (and (>= e 1) (bad n (- e 1) f (+ p 1) c))
           (and (>= p 1) (bad n e (+ f 1) (- p 1) c))
           (and (>= f 1) (bad n (+ e 1) (- f 1) p (+ c 1)))
           (and (>= c 1) (bad n e f p (- c 1))))))
(define-fun worse1 ((n Int) (e Int) (f Int) (p Int) (c Int)) Bool
  (and (state n e f p c) (or (> (+ p f c) n) (and (>= e 1) (> (+ p f c 1) n)))))
(set-equal broken1 worse1)
(define-fun broken2 ((n Int) (e Int) (f Int) (p Int) (c Int)) Bool
  (and (state n e f p c)
       (or (worse1 n e f p c)
           (and (>= e 1) (worse1 n (- e 1) f (+ p 1) c))
           (and (>= p 1) (worse1 n e (+ f 1) (- p 1) c))
           (and (>= f 1) (worse1 n (+ e 1) (- f 1) p (+ c 1)))
           (and (>= c 1) (worse1 n e f p (- c 1))))))
(define-fun worse2 ((n Int) (e Int) (f Int) (p Int) (c Int)) Bool
  (and (state n e f p c)
       (or (> (+ p f c) n)
           (and (>= (+ e f) 1) (> (+ p f c 1) n))
           (and (>= e 2) (> (+ p f c 2) n)))))
(set-equal broken2 worse2)
(define-fun broken3 ((n Int) (e Int) (f Int) (p Int) (c Int)) Bool
  (and (state n e f p c)
       (or (worse2 n e f p c)
           (and (>= e 1) (worse2 n (- e 1) f (+ p 1) c))
           (and (>= p 1) (worse2 n e (+ f 1) (- p 1) c))
           (and (>= f 1) (worse2 n (+ e 1) (- f 1) p (+ c 1)))
           (and (>= c 1) (worse2 n e f p (- c 1))))))
(define-fun worse3 ((n Int) (e Int) (f Int) (p Int) (c Int)) Bool
  (and (state n e f p c)
       (or (> (+ p f c) n)
           (and (>= (+ e f p) 1) (> (+ p f c 1) n))
           (and (>= e 1) (>= (+ e f) 2) (> (+ p f c 2) n))
           (and (>= e 3) (> (+ p f c 3) n)))))
(set-equal broken3 worse3)
(define-fun broken4 ((n Int) (e Int) (f Int) (p Int) (c Int)) Bool
  (and (state n e f p c)
       (or (worse3 n e f p c)
           (and (>= e 1) (worse3 n (- e 1) f (+ p 1) c))
           (and (>= p 1) (worse3 n e (+ f 1) (- p 1) c))
           (and (>= f 1) (worse3 n (+ e 1) (- f 1) p (+ c 1)))
           (and (>= c 1) (worse3 n e f p (- c 1))))))
(define-fun early ((n Int) (e Int) (f Int) (p Int) (c Int)) Bool
  (and (start n e f p c) (worse3 n e f p c)))
(set-empty early)
(declare-const n Int)
(declare-const e Int)
(declare-const f Int)
(declare-const p Int)
(declare-const c Int)
(assert (start n e f p c))
(assert (broken4 n e f p c))
(check-sat)
(get-value (n e f p c))
; One slot. A producer fills it, a consumer comes to empty it and signals at once, and the next producer comes to fill
; it.
(set-member worse3 1 0 0 1 0)
(set-member worse2 1 0 1 0 0)
(set-member worse1 1 1 0 0 1)
(set-member bad 1 0 0 1 1)
