; options: --states=50
; Which x leaves 3 modulo 7 and 5 modulo 11? Either congruence has few residuals, 7 and 11; both together have 77 pairs
; of residuals, which is over the bound of 50. With --states=77 or more the answer is sat.
(declare-const x Int)
(assert (and ((_ divisible 7) (- x 3)) ((_ divisible 11) (- x 5))))
(check-sat)
(get-value (x))
