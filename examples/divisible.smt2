; Rows of three leave 2, rows of five leave 3, rows of seven leave 2: how many are there, if fewer than 105?
; Then: is every multiple of both 6 and 10 a multiple of 30? Of 60?
(declare-const x Int)
(assert (and ((_ divisible 3) (- x 2)) ((_ divisible 5) (- x 3)) ((_ divisible 7) (- x 2))))
(assert (and (<= 0 x) (< x 105)))
(check-sat)
(get-value (x))
(define-fun both ((n Int)) Bool (and ((_ divisible 6) n) ((_ divisible 10) n)))
(define-fun by30 ((n Int)) Bool ((_ divisible 30) n))
(define-fun by60 ((n Int)) Bool ((_ divisible 60) n))
(set-equal both by30)
(set-subset both by60)
(set-subset by60 both)
