; The Berkeley protocol for cache coherence: for any number of caches, can an exclusive copy of a line stand beside
; another copy?
;
; Of the caches i have no copy, u an unowned one, n a nonexclusive one that its cache owns (newer than memory, and
; others may have copies), and e an exclusive one that its cache owns (and no other has a copy). A read miss is served
; by the owner, whose copy is nonexclusive from then on; a write hit that is not exclusive and a write miss make all
; others drop theirs. Any cache may give its copy up.
; Source: Katz, Eggers, Wood, Perkins and Sheldon, ISCA 1985, as in Archibald and Baer, ACM Transactions on Computer
; Systems 4(4), 1986; counters and rules after Delzanno, CAV 2000 (Automatic verification of parameterized cache
; coherence protocols).
(define-fun state ((i Int) (u Int) (n Int) (e Int)) Bool
  (and (>= i 0) (>= u 0) (>= n 0) (>= e 0)))
(define-fun start ((i Int) (u Int) (n Int) (e Int)) Bool
  (and (>= i 1) (= u 0) (= n 0) (= e 0)))
(define-fun bad ((i Int) (u Int) (n Int) (e Int)) Bool
  (and (state i u n e) (or (>= e 2) (and (>= e 1) (>= (+ u n) 1)))))
(echo "rounds")
; One round backwards: the bad states, and those from which one step leads to a bad one. It adds nothing, so no step
; leads to a bad state from any other; and no start is bad.
(define-fun round1 ((i Int) (u Int) (n Int) (e Int)) Bool
  (and (state i u n e)
       (or (bad i u n e)
           (and (>= i 1) (bad (- i 1) (+ u 1) (+ n e) 0))          ; read miss
           (and (>= (+ u n) 1) (bad (- (+ i u n) 1) 0 0 (+ e 1)))  ; write hit, not exclusive
           (and (>= i 1) (bad (- (+ i u n e) 1) 0 0 1))            ; write miss
           (and (>= u 1) (bad (+ i 1) (- u 1) n e))                ; an unowned copy is given up
           (and (>= n 1) (bad (+ i 1) u (- n 1) e))                ; a nonexclusive copy is given up
           (and (>= e 1) (bad (+ i 1) u n (- e 1))))))             ; an exclusive copy is given up
(set-equal round1 bad)
(define-fun unsafe ((i Int) (u Int) (n Int) (e Int)) Bool
  (and (start i u n e) (bad i u n e)))
(set-empty unsafe)
; An invariant says the same without rounds: it holds at the start, no step leads out of it, and no bad state is in
; it.
(echo "invariant")
(define-fun inv ((i Int) (u Int) (n Int) (e Int)) Bool
  (and (state i u n e) (<= e 1) (or (= e 0) (= (+ u n) 0))))
(define-fun escape ((i Int) (u Int) (n Int) (e Int)) Bool
  (and (inv i u n e)
       (or (and (>= i 1) (not (inv (- i 1) (+ u 1) (+ n e) 0)))
           (and (>= (+ u n) 1) (not (inv (- (+ i u n) 1) 0 0 (+ e 1))))
           (and (>= i 1) (not (inv (- (+ i u n e) 1) 0 0 1)))
           (and (>= u 1) (not (inv (+ i 1) (- u 1) n e)))
           (and (>= n 1) (not (inv (+ i 1) u (- n 1) e)))
           (and (>= e 1) (not (inv (+ i 1) u n (- e 1)))))))
(set-subset start inv)
(set-empty escape)
(define-fun bad-inside ((i Int) (u Int) (n Int) (e Int)) Bool
  (and (inv i u n e) (bad i u n e)))
(set-empty bad-inside)
; A slip: at a read miss the owner keeps its copy exclusive. No start leads to a bad state in one step or none, but
; some do in two. The least one:
(echo "slip")
(define-fun broken1 ((i Int) (u Int) (n Int) (e Int)) Bool
  (and (state i u n e)
       (or (bad i u n e)
           (and (>= i 1) (bad (- i 1) (+ u 1) n e))                ; read miss
           (and (>= (+ u n) 1) (bad (- (+ i u n) 1) 0 0 (+ e 1)))  ; write hit, not exclusive
           (and (>= i 1) (bad (- (+ i u n e) 1) 0 0 1))            ; write miss
           (and (>= u 1) (bad (+ i 1) (- u 1) n e))                ; an unowned copy is given up
           (and (>= n 1) (bad (+ i 1) u (- n 1) e))                ; a nonexclusive copy is given up
           (and (>= e 1) (bad (+ i 1) u n (- e 1))))))             ; an exclusive copy is given up
(define-fun worse1 ((i Int) (u Int) (n Int) (e Int)) Bool
  (and (state i u n e) (or (>= e 2) (and (>= e 1) (>= (+ i u n) 1)))))
(set-equal broken1 worse1)
(define-fun broken2 ((i Int) (u Int) (n Int) (e Int)) Bool
  (and (state i u n e)
       (or (worse1 i u n e)
           (and (>= i 1) (worse1 (- i 1) (+ u 1) n e))
           (and (>= (+ u n) 1) (worse1 (- (+ i u n) 1) 0 0 (+ e 1)))
           (and (>= i 1) (worse1 (- (+ i u n e) 1) 0 0 1))
           (and (>= u 1) (worse1 (+ i 1) (- u 1) n e))
           (and (>= n 1) (worse1 (+ i 1) u (- n 1) e))
           (and (>= e 1) (worse1 (+ i 1) u n (- e 1))))))
(define-fun early ((i Int) (u Int) (n Int) (e Int)) Bool
  (and (start i u n e) (worse1 i u n e)))
(set-empty early)
(declare-const i Int)
(declare-const u Int)
(declare-const n Int)
(declare-const e Int)
(assert (start i u n e))
(assert (broken2 i u n e))
(check-sat)
(get-value (i u n e))
; Two caches, no copies. One writes and owns the line, the other reads: its copy will not hear of the next write.
(set-member worse1 1 0 0 1)
(set-member bad 0 1 0 1)
