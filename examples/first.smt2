; Are there integers x and y with 6x - 4y = 3?
(declare-const x Int)
(declare-const y Int)
(assert (= (+ (* 6 x) (* (- 4) y)) 3))
(check-sat)
