; Peterson's mutual exclusion for two processes: can both be in the critical section?
;
; Each process has a program counter, p and q: 0 outside, 1 its flag is up, 2 it has given the turn away and waits, 3
; inside. Flags are read off the counters: up from 1 on. Turn is 1 or 2; the first process waits until the other flag
; is down or the turn is 1, the second until the other flag is down or the turn is 2.
; Source: Peterson, Myths about the mutual exclusion problem, Information Processing Letters 12(3), 1981. The program
; counters stand here as integers from 0 to 3.
(define-fun state ((p Int) (q Int) (turn Int)) Bool (and (<= 0 p 3) (<= 0 q 3) (<= 1 turn 2)))
(define-fun start ((p Int) (q Int) (turn Int)) Bool (and (= p 0) (= q 0) (<= 1 turn 2)))
(define-fun bad ((p Int) (q Int) (turn Int)) Bool (and (state p q turn) (= p 3) (= q 3)))
; A step as a relation of the state before and the state after. A round applies it once, under a quantifier, and so
; makes one copy of the round before, not one for each of the eight rules; the relation has six variables.
(define-fun step ((p Int) (q Int) (turn Int) (p2 Int) (q2 Int) (turn2 Int)) Bool
  (or (and (= q2 q)
           (or (and (= p 0) (= p2 1) (= turn2 turn))                         ; the flag goes up
               (and (= p 1) (= p2 2) (= turn2 2))                            ; the turn is given away
               (and (= p 2) (or (= q 0) (= turn 1)) (= p2 3) (= turn2 turn)) ; in
               (and (= p 3) (= p2 0) (= turn2 turn))))                       ; out
      (and (= p2 p)
           (or (and (= q 0) (= q2 1) (= turn2 turn))
               (and (= q 1) (= q2 2) (= turn2 1))
               (and (= q 2) (or (= p 0) (= turn 2)) (= q2 3) (= turn2 turn))
               (and (= q 3) (= q2 0) (= turn2 turn))))))
; The rounds, backwards: one process is inside, the other waits, and the turn is its own. Round 2 adds nothing to
; round 1.
(echo "rounds")
(define-fun round1 ((p Int) (q Int) (turn Int)) Bool
  (or (bad p q turn)
      (and (state p q turn)
           (exists ((p2 Int) (q2 Int) (turn2 Int)) (and (step p q turn p2 q2 turn2) (bad p2 q2 turn2))))))
(set-list round1 10)
(define-fun round2 ((p Int) (q Int) (turn Int)) Bool
  (or (bad p q turn)
      (and (state p q turn)
           (exists ((p2 Int) (q2 Int) (turn2 Int)) (and (step p q turn p2 q2 turn2) (round1 p2 q2 turn2))))))
(set-equal round1 round2)
(define-fun unsafe ((p Int) (q Int) (turn Int)) Bool (and (start p q turn) (round1 p q turn)))
(set-empty unsafe)
; An invariant says the same without rounds: of two processes, one inside and the other past its flag, the other waits
; and has not got the turn.
(echo "invariant")
(define-fun inv ((p Int) (q Int) (turn Int)) Bool
  (and (state p q turn)
       (=> (and (= p 3) (>= q 2)) (and (= q 2) (= turn 1)))
       (=> (and (= q 3) (>= p 2)) (and (= p 2) (= turn 2)))))
(define-fun escape ((p Int) (q Int) (turn Int)) Bool
  (and (inv p q turn)
       (exists ((p2 Int) (q2 Int) (turn2 Int)) (and (step p q turn p2 q2 turn2) (not (inv p2 q2 turn2))))))
(set-subset start inv)
(set-empty escape)
(define-fun bad-inside ((p Int) (q Int) (turn Int)) Bool (and (inv p q turn) (bad p q turn)))
(set-empty bad-inside)
; A slip: the turn is given away before the flag goes up, so a flag is up from 2 on. No start leads to a bad state in
; at most five steps, but some do in six. The least one:
(echo "slip")
(define-fun slip ((p Int) (q Int) (turn Int) (p2 Int) (q2 Int) (turn2 Int)) Bool
  (or (and (= q2 q)
           (or (and (= p 0) (= p2 1) (= turn2 2))
               (and (= p 1) (= p2 2) (= turn2 turn))
               (and (= p 2) (or (<= q 1) (= turn 1)) (= p2 3) (= turn2 turn))
               (and (= p 3) (= p2 0) (= turn2 turn))))
      (and (= p2 p)
           (or (and (= q 0) (= q2 1) (= turn2 1))
               (and (= q 1) (= q2 2) (= turn2 turn))
               (and (= q 2) (or (<= p 1) (= turn 2)) (= q2 3) (= turn2 turn))
               (and (= q 3) (= q2 0) (= turn2 turn))))))
(define-fun broken1 ((p Int) (q Int) (turn Int)) Bool
  (or (bad p q turn)
      (exists ((p2 Int) (q2 Int) (turn2 Int)) (and (slip p q turn p2 q2 turn2) (bad p2 q2 turn2)))))
(define-fun broken2 ((p Int) (q Int) (turn Int)) Bool
  (or (bad p q turn)
      (exists ((p2 Int) (q2 Int) (turn2 Int)) (and (slip p q turn p2 q2 turn2) (broken1 p2 q2 turn2)))))
(define-fun broken3 ((p Int) (q Int) (turn Int)) Bool
  (or (bad p q turn)
      (exists ((p2 Int) (q2 Int) (turn2 Int)) (and (slip p q turn p2 q2 turn2) (broken2 p2 q2 turn2)))))
(define-fun broken4 ((p Int) (q Int) (turn Int)) Bool
  (or (bad p q turn)
      (exists ((p2 Int) (q2 Int) (turn2 Int)) (and (slip p q turn p2 q2 turn2) (broken3 p2 q2 turn2)))))
(define-fun broken5 ((p Int) (q Int) (turn Int)) Bool
  (or (bad p q turn)
      (exists ((p2 Int) (q2 Int) (turn2 Int)) (and (slip p q turn p2 q2 turn2) (broken4 p2 q2 turn2)))))
(define-fun broken6 ((p Int) (q Int) (turn Int)) Bool
  (or (bad p q turn)
      (exists ((p2 Int) (q2 Int) (turn2 Int)) (and (slip p q turn p2 q2 turn2) (broken5 p2 q2 turn2)))))
(define-fun early ((p Int) (q Int) (turn Int)) Bool (and (start p q turn) (broken5 p q turn)))
(set-empty early)
(declare-const p Int)
(declare-const q Int)
(declare-const turn Int)
(assert (start p q turn))
(assert (broken6 p q turn))
(check-sat)
(get-value (p q turn))
; The first gives the turn away, then the second does, raises its flag and goes in, since the other flag is down; then
; the first raises its flag and goes in too, since the turn is its own.
(set-member broken5 1 0 2)
(set-member broken4 1 1 1)
(set-member broken3 1 2 1)
(set-member broken2 1 3 1)
(set-member broken1 2 3 1)
(set-member bad 3 3 1)
