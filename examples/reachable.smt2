; A ticket machine has two counters, credit and tickets, both 0 at the start. It first takes i coins of 2, and then
; sells j tickets at 3 each; a sale needs a credit of at least 3 at that moment. Which pairs can it reach?
(define-fun reach ((credit Int) (tickets Int)) Bool
  (exists ((i Int) (j Int))
    (and (>= i 0) (>= j 0)
         (= credit (- (* 2 i) (* 3 j)))
         (= tickets j)
         (forall ((k Int)) (=> (and (<= 0 k) (< k j)) (>= (- (* 2 i) (* 3 k)) 3))))))
; Can it sell a ticket and end with no credit? It needs an even number of tickets.
(set-member reach 0 1)
(set-member reach 0 2)
; Can the credit fall below 0?
(declare-const c Int)
(declare-const t Int)
(push)
(assert (and (reach c t) (< c 0)))
(check-sat)
(pop)
; Three tickets and the credit at most 1: what is left?
(push)
(assert (and (reach c t) (= t 3) (<= c 1)))
(check-sat)
(get-value (c t))
(pop)
; The reachable pairs without a quantifier: nothing is negative, and the sum is even.
(define-fun closed ((credit Int) (tickets Int)) Bool
  (and (>= credit 0) (>= tickets 0) ((_ divisible 2) (+ credit tickets))))
(set-equal reach closed)
