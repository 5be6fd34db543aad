; Synapse N+1, a cache coherence protocol: for any number of caches, can a dirty copy of a line stand beside another
; copy?
;
; Of the caches i have no copy, v a valid one (as memory has it), and d a dirty one, which its cache alone may write.
; A read miss makes the dirty copy be written back and dropped; a write, hit or miss, makes all others drop theirs.
; Source: the protocol in Archibald and Baer, ACM Transactions on Computer Systems 4(4), 1986; counters and rules
; after Delzanno, CAV 2000 (Automatic verification of parameterized cache coherence protocols).
(define-fun state ((i Int) (v Int) (d Int)) Bool
  (and (>= i 0) (>= v 0) (>= d 0)))
(define-fun start ((i Int) (v Int) (d Int)) Bool
  (and (>= i 1) (= v 0) (= d 0)))
(define-fun bad ((i Int) (v Int) (d Int)) Bool
  (and (state i v d) (or (>= d 2) (and (>= d 1) (>= v 1)))))
(echo "rounds")
; One round backwards: the bad states, and those from which one step leads to a bad one. It adds nothing, so no step
; leads to a bad state from any other; and no start is bad.
(define-fun round1 ((i Int) (v Int) (d Int)) Bool
  (and (state i v d)
       (or (bad i v d)
           (and (>= i 1) (bad (- (+ i d) 1) (+ v 1) 0))  ; read miss
           (and (>= v 1) (bad (- (+ i v d) 1) 0 1))      ; write hit on a valid copy
           (and (>= i 1) (bad (- (+ i v d) 1) 0 1)))))   ; write miss
(set-equal round1 bad)
(define-fun unsafe ((i Int) (v Int) (d Int)) Bool
  (and (start i v d) (bad i v d)))
(set-empty unsafe)
; An invariant says the same without rounds: it holds at the start, no step leads out of it, and no bad state is in
; it.
(echo "invariant")
(define-fun inv ((i Int) (v Int) (d Int)) Bool
  (and (state i v d) (<= d 1) (or (= d 0) (= v 0))))
(define-fun escape ((i Int) (v Int) (d Int)) Bool
  (and (inv i v d)
       (or (and (>= i 1) (not (inv (- (+ i d) 1) (+ v 1) 0)))
           (and (>= v 1) (not (inv (- (+ i v d) 1) 0 1)))
           (and (>= i 1) (not (inv (- (+ i v d) 1) 0 1))))))
(set-subset start inv)
(set-empty escape)
(define-fun bad-inside ((i Int) (v Int) (d Int)) Bool
  (and (inv i v d) (bad i v d)))
(set-empty bad-inside)
; A slip: a read miss takes the line from memory and leaves the dirty copy where it is. No start leads to a bad state
; in one step or none, but some do in two. The least one:
(echo "slip")
(define-fun broken1 ((i Int) (v Int) (d Int)) Bool
  (and (state i v d)
       (or (bad i v d)
           (and (>= i 1) (bad (- i 1) (+ v 1) d))       ; read miss
           (and (>= v 1) (bad (- (+ i v d) 1) 0 1))     ; write hit on a valid copy
           (and (>= i 1) (bad (- (+ i v d) 1) 0 1)))))  ; write miss
(define-fun worse1 ((i Int) (v Int) (d Int)) Bool
  (and (state i v d) (or (>= d 2) (and (>= d 1) (>= (+ i v) 1)))))
(set-equal broken1 worse1)
(define-fun broken2 ((i Int) (v Int) (d Int)) Bool
  (and (state i v d)
       (or (worse1 i v d)
           (and (>= i 1) (worse1 (- i 1) (+ v 1) d))
           (and (>= v 1) (worse1 (- (+ i v d) 1) 0 1))
           (and (>= i 1) (worse1 (- (+ i v d) 1) 0 1)))))
(define-fun early ((i Int) (v Int) (d Int)) Bool
  (and (start i v d) (worse1 i v d)))
(set-empty early)
(declare-const i Int)
(declare-const v Int)
(declare-const d Int)
(assert (start i v d))
(assert (broken2 i v d))
(check-sat)
(get-value (i v d))
; Two caches, no copies. One writes and has a dirty copy, the other reads: a valid copy stands beside the dirty one.
(set-member worse1 1 0 1)
(set-member bad 0 1 1)
