; There are coins of 6, 9 and 20. Which is the largest amount that cannot be paid with them?
; Such an amount x cannot be paid, and every amount above it can. Then: is 42 among those that can?
(define-fun payable ((n Int)) Bool
  (exists ((a Int) (b Int) (c Int))
    (and (>= a 0) (>= b 0) (>= c 0) (= n (+ (* 6 a) (* 9 b) (* 20 c))))))
(declare-const x Int)
(assert (not (payable x)))
(assert (forall ((y Int)) (=> (> y x) (payable y))))
(check-sat)
(get-value (x))
(set-member payable 42)
