; Readers and writers share a file: for any number of processes, can a writer be at work beside a reader or another
; writer?
;
; Of the processes i are idle, r read and w write; a semaphore s is 1 where neither is at work. The first reader takes
; the semaphore and the last one that leaves gives it back; a writer takes it and gives it back.
; Source: Courtois, Heymans and Parnas, Communications of the ACM 14(10), 1971, first problem. Their second semaphore
; makes counting the readers and taking the first one a single step, which is how it stands here.
(define-fun state ((i Int) (r Int) (w Int) (s Int)) Bool
  (and (>= i 0) (>= r 0) (>= w 0) (>= s 0)))
(define-fun start ((i Int) (r Int) (w Int) (s Int)) Bool
  (and (>= i 1) (= r 0) (= w 0) (= s 1)))
(define-fun bad ((i Int) (r Int) (w Int) (s Int)) Bool
  (and (state i r w s) (or (>= w 2) (and (>= w 1) (>= r 1)))))
(echo "rounds")
; The rounds, backwards: round k has the states from which a bad one is at most k steps away. Each is built from the
; one before by the rules, and then said again in short, which the next round starts from.
(define-fun round1 ((i Int) (r Int) (w Int) (s Int)) Bool
  (and (state i r w s)
       (or (bad i r w s)
           (and (>= i 1) (= r 0) (>= s 1) (bad (- i 1) (+ r 1) w (- s 1)))  ; the first reader comes
           (and (>= i 1) (>= r 1) (bad (- i 1) (+ r 1) w s))                ; a further reader comes
           (and (>= r 2) (bad (+ i 1) (- r 1) w s))                         ; a reader leaves
           (and (= r 1) (bad (+ i 1) (- r 1) w (+ s 1)))                    ; the last reader leaves
           (and (>= i 1) (>= s 1) (bad (- i 1) r (+ w 1) (- s 1)))          ; a writer comes
           (and (>= w 1) (bad (+ i 1) r (- w 1) (+ s 1))))))                ; a writer leaves
(define-fun bad1 ((i Int) (r Int) (w Int) (s Int)) Bool
  (and (state i r w s) (or (>= w 2) (and (>= w 1) (>= r 1)) (and (>= i 1) (>= s 1) (>= (+ r w) 1)))))
(set-equal round1 bad1)
(define-fun round2 ((i Int) (r Int) (w Int) (s Int)) Bool
  (and (state i r w s)
       (or (bad1 i r w s)
           (and (>= i 1) (= r 0) (>= s 1) (bad1 (- i 1) (+ r 1) w (- s 1)))
           (and (>= i 1) (>= r 1) (bad1 (- i 1) (+ r 1) w s))
           (and (>= r 2) (bad1 (+ i 1) (- r 1) w s))
           (and (= r 1) (bad1 (+ i 1) (- r 1) w (+ s 1)))
           (and (>= i 1) (>= s 1) (bad1 (- i 1) r (+ w 1) (- s 1)))
           (and (>= w 1) (bad1 (+ i 1) r (- w 1) (+ s 1))))))
(define-fun bad2 ((i Int) (r Int) (w Int) (s Int)) Bool
  (and (state i r w s)
       (or (>= w 2)
           (and (>= w 1) (>= r 1))
           (and (>= i 1) (>= s 1) (>= (+ r w) 1))
           (and (>= r 2) (>= s 1))
           (and (>= i 2) (>= s 2)))))
(set-equal round2 bad2)
; Round 3 adds nothing to round 2: no further state leads to a bad one. And no start is among them.
(define-fun round3 ((i Int) (r Int) (w Int) (s Int)) Bool
  (and (state i r w s)
       (or (bad2 i r w s)
           (and (>= i 1) (= r 0) (>= s 1) (bad2 (- i 1) (+ r 1) w (- s 1)))
           (and (>= i 1) (>= r 1) (bad2 (- i 1) (+ r 1) w s))
           (and (>= r 2) (bad2 (+ i 1) (- r 1) w s))
           (and (= r 1) (bad2 (+ i 1) (- r 1) w (+ s 1)))
           (and (>= i 1) (>= s 1) (bad2 (- i 1) r (+ w 1) (- s 1)))
           (and (>= w 1) (bad2 (+ i 1) r (- w 1) (+ s 1))))))
(set-equal round3 bad2)
(define-fun unsafe ((i Int) (r Int) (w Int) (s Int)) Bool
  (and (start i r w s) (bad2 i r w s)))
(set-empty unsafe)
; An invariant says the same without rounds: it holds at the start, no step leads out of it, and no bad state is in
; it.
(echo "invariant")
(define-fun inv ((i Int) (r Int) (w Int) (s Int)) Bool
  (and (state i r w s) (<= (+ w s) 1) (or (= r 0) (= (+ w s) 0)) (or (>= r 1) (= (+ w s) 1))))
(define-fun escape ((i Int) (r Int) (w Int) (s Int)) Bool
  (and (inv i r w s)
       (or (and (>= i 1) (= r 0) (>= s 1) (not (inv (- i 1) (+ r 1) w (- s 1))))
           (and (>= i 1) (>= r 1) (not (inv (- i 1) (+ r 1) w s)))
           (and (>= r 2) (not (inv (+ i 1) (- r 1) w s)))
           (and (= r 1) (not (inv (+ i 1) (- r 1) w (+ s 1))))
           (and (>= i 1) (>= s 1) (not (inv (- i 1) r (+ w 1) (- s 1))))
           (and (>= w 1) (not (inv (+ i 1) r (- w 1) (+ s 1)))))))
(set-subset start inv)
(set-empty escape)
(define-fun bad-inside ((i Int) (r Int) (w Int) (s Int)) Bool
  (and (inv i r w s) (bad i r w s)))
(set-empty bad-inside)
; A slip: every reader that leaves gives the semaphore back. No start leads to a bad state in at most three steps, but
; some do in four. The least one:
(echo "slip")
(define-fun broken1 ((i Int) (r Int) (w Int) (s Int)) Bool
  (and (state i r w s)
       (or (bad i r w s)
           (and (>= i 1) (= r 0) (>= s 1) (bad (- i 1) (+ r 1) w (- s 1)))  ; the first reader comes
           (and (>= i 1) (>= r 1) (bad (- i 1) (+ r 1) w s))                ; a further reader comes
           (and (>= r 1) (bad (+ i 1) (- r 1) w (+ s 1)))                   ; a reader leaves
           (and (= r 1) (bad (+ i 1) (- r 1) w (+ s 1)))                    ; the last reader leaves
           (and (>= i 1) (>= s 1) (bad (- i 1) r (+ w 1) (- s 1)))          ; a writer comes
           (and (>= w 1) (bad (+ i 1) r (- w 1) (+ s 1))))))                ; a writer leaves
(define-fun worse1 ((i Int) (r Int) (w Int) (s Int)) Bool
  (and (state i r w s) (or (>= w 2) (and (>= w 1) (>= r 1)) (and (>= i 1) (>= s 1) (>= (+ r w) 1)))))
(set-equal broken1 worse1)
(define-fun broken2 ((i Int) (r Int) (w Int) (s Int)) Bool
  (and (state i r w s)
       (or (worse1 i r w s)
           (and (>= i 1) (= r 0) (>= s 1) (worse1 (- i 1) (+ r 1) w (- s 1)))
           (and (>= i 1) (>= r 1) (worse1 (- i 1) (+ r 1) w s))
           (and (>= r 1) (worse1 (+ i 1) (- r 1) w (+ s 1)))
           (and (= r 1) (worse1 (+ i 1) (- r 1) w (+ s 1)))
           (and (>= i 1) (>= s 1) (worse1 (- i 1) r (+ w 1) (- s 1)))
           (and (>= w 1) (worse1 (+ i 1) r (- w 1) (+ s 1))))))
(define-fun worse2 ((i Int) (r Int) (w Int) (s Int)) Bool
  (and (state i r w s)
       (or (>= w 2)
           (and (>= w 1) (>= r 1))
           (and (>= i 1) (>= s 1) (>= (+ r w) 1))
           (>= r 2)
           (and (>= i 2) (>= s 2)))))
(set-equal broken2 worse2)
(define-fun broken3 ((i Int) (r Int) (w Int) (s Int)) Bool
  (and (state i r w s)
       (or (worse2 i r w s)
           (and (>= i 1) (= r 0) (>= s 1) (worse2 (- i 1) (+ r 1) w (- s 1)))
           (and (>= i 1) (>= r 1) (worse2 (- i 1) (+ r 1) w s))
           (and (>= r 1) (worse2 (+ i 1) (- r 1) w (+ s 1)))
           (and (= r 1) (worse2 (+ i 1) (- r 1) w (+ s 1)))
           (and (>= i 1) (>= s 1) (worse2 (- i 1) r (+ w 1) (- s 1)))
           (and (>= w 1) (worse2 (+ i 1) r (- w 1) (+ s 1))))))
(define-fun worse3 ((i Int) (r Int) (w Int) (s Int)) Bool
  (and (state i r w s)
       (or (>= w 2)
           (and (>= w 1) (>= r 1))
           (and (>= i 1) (>= s 1) (>= w 1))
           (>= r 2)
           (and (>= i 1) (>= r 1))
           (and (>= i 2) (>= s 2)))))
(set-equal broken3 worse3)
(define-fun broken4 ((i Int) (r Int) (w Int) (s Int)) Bool
  (and (state i r w s)
       (or (worse3 i r w s)
           (and (>= i 1) (= r 0) (>= s 1) (worse3 (- i 1) (+ r 1) w (- s 1)))
           (and (>= i 1) (>= r 1) (worse3 (- i 1) (+ r 1) w s))
           (and (>= r 1) (worse3 (+ i 1) (- r 1) w (+ s 1)))
           (and (= r 1) (worse3 (+ i 1) (- r 1) w (+ s 1)))
           (and (>= i 1) (>= s 1) (worse3 (- i 1) r (+ w 1) (- s 1)))
           (and (>= w 1) (worse3 (+ i 1) r (- w 1) (+ s 1))))))
(define-fun early ((i Int) (r Int) (w Int) (s Int)) Bool
  (and (start i r w s) (worse3 i r w s)))
(set-empty early)
(declare-const i Int)
(declare-const r Int)
(declare-const w Int)
(declare-const s Int)
(assert (start i r w s))
(assert (broken4 i r w s))
(check-sat)
(get-value (i r w s))
; Two processes. Both come to read, one leaves and gives the semaphore back, and comes again to write.
(set-member worse3 1 1 0 0)
(set-member worse2 0 2 0 0)
(set-member worse1 1 1 0 1)
(set-member bad 0 1 1 0)
