; MSI, a cache coherence protocol: for any number of caches, can a modified copy of a line stand beside another copy?
;
; Of the caches i have no copy (invalid), s a shared one, and m a modified one, which its cache alone may write. A
; read miss makes the modified copy be written back and shared; a write, hit or miss, makes all others invalid.
; Source: Culler, Singh and Gupta, Parallel Computer Architecture, 1999, section 5.3.1; counters and rules after
; Delzanno, CAV 2000 (Automatic verification of parameterized cache coherence protocols).
(define-fun state ((i Int) (s Int) (m Int)) Bool
  (and (>= i 0) (>= s 0) (>= m 0)))
(define-fun start ((i Int) (s Int) (m Int)) Bool
  (and (>= i 1) (= s 0) (= m 0)))
(define-fun bad ((i Int) (s Int) (m Int)) Bool
  (and (state i s m) (or (>= m 2) (and (>= m 1) (>= s 1)))))
(echo "rounds")
; One round backwards: the bad states, and those from which one step leads to a bad one. It adds nothing, so no step
; leads to a bad state from any other; and no start is bad.
(define-fun round1 ((i Int) (s Int) (m Int)) Bool
  (and (state i s m)
       (or (bad i s m)
           (and (>= i 1) (bad (- i 1) (+ s m 1) 0))     ; read miss
           (and (>= s 1) (bad (- (+ i s m) 1) 0 1))     ; write hit on a shared copy
           (and (>= i 1) (bad (- (+ i s m) 1) 0 1)))))  ; write miss
(set-equal round1 bad)
(define-fun unsafe ((i Int) (s Int) (m Int)) Bool
  (and (start i s m) (bad i s m)))
(set-empty unsafe)
; An invariant says the same without rounds: it holds at the start, no step leads out of it, and no bad state is in
; it.
(echo "invariant")
(define-fun inv ((i Int) (s Int) (m Int)) Bool
  (and (state i s m) (<= m 1) (or (= m 0) (= s 0))))
(define-fun escape ((i Int) (s Int) (m Int)) Bool
  (and (inv i s m)
       (or (and (>= i 1) (not (inv (- i 1) (+ s m 1) 0)))
           (and (>= s 1) (not (inv (- (+ i s m) 1) 0 1)))
           (and (>= i 1) (not (inv (- (+ i s m) 1) 0 1))))))
(set-subset start inv)
(set-empty escape)
(define-fun bad-inside ((i Int) (s Int) (m Int)) Bool
  (and (inv i s m) (bad i s m)))
(set-empty bad-inside)
; A slip: a write hit on a shared copy does not make the other shared ones invalid. No start leads to a bad state in
; at most two steps, but some do in three. The least one:
(echo "slip")
(define-fun broken1 ((i Int) (s Int) (m Int)) Bool
  (and (state i s m)
       (or (bad i s m)
           (and (>= i 1) (bad (- i 1) (+ s m 1) 0))     ; read miss
           (and (>= s 1) (bad (+ i m) (- s 1) 1))       ; write hit on a shared copy
           (and (>= i 1) (bad (- (+ i s m) 1) 0 1)))))  ; write miss
(define-fun worse1 ((i Int) (s Int) (m Int)) Bool
  (and (state i s m) (or (>= m 2) (and (>= m 1) (>= s 1)) (>= s 2))))
(set-equal broken1 worse1)
(define-fun broken2 ((i Int) (s Int) (m Int)) Bool
  (and (state i s m)
       (or (worse1 i s m)
           (and (>= i 1) (worse1 (- i 1) (+ s m 1) 0))
           (and (>= s 1) (worse1 (+ i m) (- s 1) 1))
           (and (>= i 1) (worse1 (- (+ i s m) 1) 0 1)))))
(define-fun worse2 ((i Int) (s Int) (m Int)) Bool
  (and (state i s m) (or (>= m 2) (>= s 2) (and (>= s 1) (>= (+ i m) 1)) (and (>= m 1) (>= i 1)))))
(set-equal broken2 worse2)
(define-fun broken3 ((i Int) (s Int) (m Int)) Bool
  (and (state i s m)
       (or (worse2 i s m)
           (and (>= i 1) (worse2 (- i 1) (+ s m 1) 0))
           (and (>= s 1) (worse2 (+ i m) (- s 1) 1))
           (and (>= i 1) (worse2 (- (+ i s m) 1) 0 1)))))
(define-fun early ((i Int) (s Int) (m Int)) Bool
  (and (start i s m) (worse2 i s m)))
(set-empty early)
(declare-const i Int)
(declare-const s Int)
(declare-const m Int)
(assert (start i s m))
(assert (broken3 i s m))
(check-sat)
(get-value (i s m))
; Two caches, no copies. Both read, one after the other, and one writes: the other keeps the old copy.
(set-member worse2 1 1 0)
(set-member worse1 0 2 0)
(set-member bad 0 1 1)
