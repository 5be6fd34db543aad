; The MOESI protocol for cache coherence: for any number of caches, can a modified copy of a line stand beside another
; copy?
;
; Of the caches i have no copy, s a shared one, e an exclusive one (the only copy, as memory has it), o an owned one
; (newer than memory, and others may have shared copies of it), and m a modified one (the only copy, newer than
; memory). At a read miss a modified copy becomes owned, and an exclusive one shared. A write hit on an exclusive copy
; is told to nobody; all other writes make the other copies invalid.
; Source: Sweazey and Smith, ISCA 1986 (A class of compatible cache consistency protocols); counters and rules after
; Delzanno, CAV 2000 (Automatic verification of parameterized cache coherence protocols).
(define-fun state ((i Int) (s Int) (e Int) (o Int) (m Int)) Bool
  (and (>= i 0) (>= s 0) (>= e 0) (>= o 0) (>= m 0)))
(define-fun start ((i Int) (s Int) (e Int) (o Int) (m Int)) Bool
  (and (>= i 1) (= s 0) (= e 0) (= o 0) (= m 0)))
(define-fun bad ((i Int) (s Int) (e Int) (o Int) (m Int)) Bool
  (and (state i s e o m) (or (>= m 2) (and (>= m 1) (>= (+ s e o) 1)))))
(echo "rounds")
; The rounds, backwards: round k has the states from which a bad one is at most k steps away. Each is built from the
; one before by the rules, and then said again in short, which the next round starts from.
(define-fun round1 ((i Int) (s Int) (e Int) (o Int) (m Int)) Bool
  (and (state i s e o m)
       (or (bad i s e o m)
           (and (>= i 1) (bad (- i 1) (+ s e 1) 0 (+ o m) 0))           ; read miss
           (and (>= e 1) (bad i s (- e 1) o (+ m 1)))                   ; write hit on an exclusive copy
           (and (>= (+ i s o) 1) (bad (- (+ i s e o m) 1) 0 1 0 0)))))  ; other writes
(define-fun bad1 ((i Int) (s Int) (e Int) (o Int) (m Int)) Bool
  (and (state i s e o m) (or (>= (+ e m) 2) (and (>= (+ e m) 1) (>= (+ s o) 1)))))
(set-equal round1 bad1)
; Round 2 adds nothing to round 1: no further state leads to a bad one. And no start is among them.
(define-fun round2 ((i Int) (s Int) (e Int) (o Int) (m Int)) Bool
  (and (state i s e o m)
       (or (bad1 i s e o m)
           (and (>= i 1) (bad1 (- i 1) (+ s e 1) 0 (+ o m) 0))
           (and (>= e 1) (bad1 i s (- e 1) o (+ m 1)))
           (and (>= (+ i s o) 1) (bad1 (- (+ i s e o m) 1) 0 1 0 0)))))
(set-equal round2 bad1)
(define-fun unsafe ((i Int) (s Int) (e Int) (o Int) (m Int)) Bool
  (and (start i s e o m) (bad1 i s e o m)))
(set-empty unsafe)
; An invariant says the same without rounds: it holds at the start, no step leads out of it, and no bad state is in
; it.
(echo "invariant")
(define-fun inv ((i Int) (s Int) (e Int) (o Int) (m Int)) Bool
  (and (state i s e o m) (<= (+ e m) 1) (or (= (+ e m) 0) (= (+ s o) 0))))
(define-fun escape ((i Int) (s Int) (e Int) (o Int) (m Int)) Bool
  (and (inv i s e o m)
       (or (and (>= i 1) (not (inv (- i 1) (+ s e 1) 0 (+ o m) 0)))
           (and (>= e 1) (not (inv i s (- e 1) o (+ m 1))))
           (and (>= (+ i s o) 1) (not (inv (- (+ i s e o m) 1) 0 1 0 0))))))
(set-subset start inv)
(set-empty escape)
(define-fun bad-inside ((i Int) (s Int) (e Int) (o Int) (m Int)) Bool
  (and (inv i s e o m) (bad i s e o m)))
(set-empty bad-inside)
; A slip: a write hit on an owned copy makes it modified, and is told to nobody. No start leads to a bad state in at
; most three steps, but some do in four. The least one:
(echo "slip")
(define-fun broken1 ((i Int) (s Int) (e Int) (o Int) (m Int)) Bool
  (and (state i s e o m)
       (or (bad i s e o m)
           (and (>= i 1) (bad (- i 1) (+ s e 1) 0 (+ o m) 0))         ; read miss
           (and (>= e 1) (bad i s (- e 1) o (+ m 1)))                 ; write hit on an exclusive copy
           (and (>= o 1) (bad i s e (- o 1) (+ m 1)))                 ; write hit on an owned copy
           (and (>= (+ i s) 1) (bad (- (+ i s e o m) 1) 0 1 0 0)))))  ; other writes
(define-fun worse1 ((i Int) (s Int) (e Int) (o Int) (m Int)) Bool
  (and (state i s e o m) (or (>= (+ e o m) 2) (and (>= s 1) (>= (+ e o m) 1)))))
(set-equal broken1 worse1)
(define-fun broken2 ((i Int) (s Int) (e Int) (o Int) (m Int)) Bool
  (and (state i s e o m)
       (or (worse1 i s e o m)
           (and (>= i 1) (worse1 (- i 1) (+ s e 1) 0 (+ o m) 0))
           (and (>= e 1) (worse1 i s (- e 1) o (+ m 1)))
           (and (>= o 1) (worse1 i s e (- o 1) (+ m 1)))
           (and (>= (+ i s) 1) (worse1 (- (+ i s e o m) 1) 0 1 0 0)))))
(define-fun worse2 ((i Int) (s Int) (e Int) (o Int) (m Int)) Bool
  (and (state i s e o m) (or (>= (+ e o m) 2) (and (>= s 1) (>= (+ e o m) 1)) (and (>= i 1) (>= (+ o m) 1)))))
(set-equal broken2 worse2)
(define-fun broken3 ((i Int) (s Int) (e Int) (o Int) (m Int)) Bool
  (and (state i s e o m)
       (or (worse2 i s e o m)
           (and (>= i 1) (worse2 (- i 1) (+ s e 1) 0 (+ o m) 0))
           (and (>= e 1) (worse2 i s (- e 1) o (+ m 1)))
           (and (>= o 1) (worse2 i s e (- o 1) (+ m 1)))
           (and (>= (+ i s) 1) (worse2 (- (+ i s e o m) 1) 0 1 0 0)))))
(define-fun worse3 ((i Int) (s Int) (e Int) (o Int) (m Int)) Bool
  (and (state i s e o m) (or (>= (+ e o m) 2) (and (>= (+ i s) 1) (>= (+ e o m) 1)))))
(set-equal broken3 worse3)
(define-fun broken4 ((i Int) (s Int) (e Int) (o Int) (m Int)) Bool
  (and (state i s e o m)
       (or (worse3 i s e o m)
           (and (>= i 1) (worse3 (- i 1) (+ s e 1) 0 (+ o m) 0))
           (and (>= e 1) (worse3 i s (- e 1) o (+ m 1)))
           (and (>= o 1) (worse3 i s e (- o 1) (+ m 1)))
           (and (>= (+ i s) 1) (worse3 (- (+ i s e o m) 1) 0 1 0 0)))))
(define-fun early ((i Int) (s Int) (e Int) (o Int) (m Int)) Bool
  (and (start i s e o m) (worse3 i s e o m)))
(set-empty early)
(declare-const i Int)
(declare-const s Int)
(declare-const e Int)
(declare-const o Int)
(declare-const m Int)
(assert (start i s e o m))
(assert (broken4 i s e o m))
(check-sat)
(get-value (i s e o m))
; Two caches, no copies. One writes and has an exclusive copy, writes again, the other reads, the first writes, and
; tells nobody.
(set-member worse3 1 0 1 0 0)
(set-member worse2 1 0 0 0 1)
(set-member worse1 0 1 0 1 0)
(set-member bad 0 1 0 0 1)
