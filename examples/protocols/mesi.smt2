; MESI, a cache coherence protocol: for any number of caches, can a modified copy of a line stand beside another
; modified or a shared one?
;
; Of the caches i have no copy (invalid), s a shared one, e an exclusive one (the only copy, as memory has it), and m
; a modified one (the only copy, newer than memory). A read miss makes every copy shared; a write hit on a shared copy
; and a write miss make all others invalid and write memory too, so the copy is exclusive; an exclusive copy is
; written without telling the others.
; Source: Delzanno, CAV 2000 (Automatic verification of parameterized cache coherence protocols), after Handy, The
; Cache Memory Book, 1993.
(define-fun state ((i Int) (s Int) (e Int) (m Int)) Bool
  (and (>= i 0) (>= s 0) (>= e 0) (>= m 0)))
(define-fun start ((i Int) (s Int) (e Int) (m Int)) Bool
  (and (>= i 1) (= s 0) (= e 0) (= m 0)))
(define-fun bad ((i Int) (s Int) (e Int) (m Int)) Bool
  (and (state i s e m) (or (>= m 2) (and (>= m 1) (>= s 1)))))
(echo "rounds")
; The rounds, backwards: round k has the states from which a bad one is at most k steps away. Each is built from the
; one before by the rules, and then said again in short, which the next round starts from.
(define-fun round1 ((i Int) (s Int) (e Int) (m Int)) Bool
  (and (state i s e m)
       (or (bad i s e m)
           (and (>= i 1) (bad (- i 1) (+ s e m 1) 0 0))     ; read miss
           (and (>= e 1) (bad i s (- e 1) (+ m 1)))         ; write hit on an exclusive copy
           (and (>= s 1) (bad (- (+ i s e m) 1) 0 1 0))     ; write hit on a shared copy
           (and (>= i 1) (bad (- (+ i s e m) 1) 0 1 0)))))  ; write miss
(define-fun bad1 ((i Int) (s Int) (e Int) (m Int)) Bool
  (and (state i s e m) (or (>= m 2) (and (>= e 1) (>= m 1)) (and (>= s 1) (>= (+ e m) 1)))))
(set-equal round1 bad1)
(define-fun round2 ((i Int) (s Int) (e Int) (m Int)) Bool
  (and (state i s e m)
       (or (bad1 i s e m)
           (and (>= i 1) (bad1 (- i 1) (+ s e m 1) 0 0))
           (and (>= e 1) (bad1 i s (- e 1) (+ m 1)))
           (and (>= s 1) (bad1 (- (+ i s e m) 1) 0 1 0))
           (and (>= i 1) (bad1 (- (+ i s e m) 1) 0 1 0)))))
(define-fun bad2 ((i Int) (s Int) (e Int) (m Int)) Bool
  (and (state i s e m) (or (>= (+ e m) 2) (and (>= s 1) (>= (+ e m) 1)))))
(set-equal round2 bad2)
; Round 3 adds nothing to round 2: no further state leads to a bad one. And no start is among them.
(define-fun round3 ((i Int) (s Int) (e Int) (m Int)) Bool
  (and (state i s e m)
       (or (bad2 i s e m)
           (and (>= i 1) (bad2 (- i 1) (+ s e m 1) 0 0))
           (and (>= e 1) (bad2 i s (- e 1) (+ m 1)))
           (and (>= s 1) (bad2 (- (+ i s e m) 1) 0 1 0))
           (and (>= i 1) (bad2 (- (+ i s e m) 1) 0 1 0)))))
(set-equal round3 bad2)
(define-fun unsafe ((i Int) (s Int) (e Int) (m Int)) Bool
  (and (start i s e m) (bad2 i s e m)))
(set-empty unsafe)
; An invariant says the same without rounds: it holds at the start, no step leads out of it, and no bad state is in
; it.
(echo "invariant")
(define-fun inv ((i Int) (s Int) (e Int) (m Int)) Bool
  (and (state i s e m) (<= (+ e m) 1) (or (= (+ e m) 0) (= s 0))))
(define-fun escape ((i Int) (s Int) (e Int) (m Int)) Bool
  (and (inv i s e m)
       (or (and (>= i 1) (not (inv (- i 1) (+ s e m 1) 0 0)))
           (and (>= e 1) (not (inv i s (- e 1) (+ m 1))))
           (and (>= s 1) (not (inv (- (+ i s e m) 1) 0 1 0)))
           (and (>= i 1) (not (inv (- (+ i s e m) 1) 0 1 0))))))
(set-subset start inv)
(set-empty escape)
(define-fun bad-inside ((i Int) (s Int) (e Int) (m Int)) Bool
  (and (inv i s e m) (bad i s e m)))
(set-empty bad-inside)
; A slip: a read miss leaves an exclusive copy exclusive. No start leads to a bad state in at most two steps, but some
; do in three. The least one:
(echo "slip")
(define-fun broken1 ((i Int) (s Int) (e Int) (m Int)) Bool
  (and (state i s e m)
       (or (bad i s e m)
           (and (>= i 1) (bad (- i 1) (+ s m 1) e 0))       ; read miss
           (and (>= e 1) (bad i s (- e 1) (+ m 1)))         ; write hit on an exclusive copy
           (and (>= s 1) (bad (- (+ i s e m) 1) 0 1 0))     ; write hit on a shared copy
           (and (>= i 1) (bad (- (+ i s e m) 1) 0 1 0)))))  ; write miss
(define-fun worse1 ((i Int) (s Int) (e Int) (m Int)) Bool
  (and (state i s e m) (or (>= m 2) (and (>= e 1) (>= m 1)) (and (>= s 1) (>= (+ e m) 1)))))
(set-equal broken1 worse1)
(define-fun broken2 ((i Int) (s Int) (e Int) (m Int)) Bool
  (and (state i s e m)
       (or (worse1 i s e m)
           (and (>= i 1) (worse1 (- i 1) (+ s m 1) e 0))
           (and (>= e 1) (worse1 i s (- e 1) (+ m 1)))
           (and (>= s 1) (worse1 (- (+ i s e m) 1) 0 1 0))
           (and (>= i 1) (worse1 (- (+ i s e m) 1) 0 1 0)))))
(define-fun worse2 ((i Int) (s Int) (e Int) (m Int)) Bool
  (and (state i s e m) (or (>= (+ e m) 2) (and (>= s 1) (>= (+ e m) 1)) (and (>= i 1) (>= e 1)))))
(set-equal broken2 worse2)
(define-fun broken3 ((i Int) (s Int) (e Int) (m Int)) Bool
  (and (state i s e m)
       (or (worse2 i s e m)
           (and (>= i 1) (worse2 (- i 1) (+ s m 1) e 0))
           (and (>= e 1) (worse2 i s (- e 1) (+ m 1)))
           (and (>= s 1) (worse2 (- (+ i s e m) 1) 0 1 0))
           (and (>= i 1) (worse2 (- (+ i s e m) 1) 0 1 0)))))
(define-fun early ((i Int) (s Int) (e Int) (m Int)) Bool
  (and (start i s e m) (worse2 i s e m)))
(set-empty early)
(declare-const i Int)
(declare-const s Int)
(declare-const e Int)
(declare-const m Int)
(assert (start i s e m))
(assert (broken3 i s e m))
(check-sat)
(get-value (i s e m))
; Two caches, no copies. One writes and has an exclusive copy, the other reads, the first writes again, and tells
; nobody.
(set-member worse2 1 0 1 0)
(set-member worse1 0 1 1 0)
(set-member bad 0 1 0 1)
