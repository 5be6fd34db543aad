; Do two descriptions of a set say the same? The amounts that coins of 3 and 5 can pay, once by the coins and once by
; a list of the small ones; then a list that forgot 6. The number of residuals is the same for equal sets.
(define-fun coins ((n Int)) Bool
  (exists ((a Int) (b Int)) (and (>= a 0) (>= b 0) (= n (+ (* 3 a) (* 5 b))))))
(define-fun listed ((n Int)) Bool
  (or (= n 0) (= n 3) (= n 5) (= n 6) (>= n 8)))
(define-fun forgot ((n Int)) Bool
  (or (= n 0) (= n 3) (= n 5) (>= n 8)))
(set-equal coins listed)
(set-states coins)
(set-states listed)
(set-equal coins forgot)
(set-subset forgot coins)
; Where do they differ?
(define-fun missing ((n Int)) Bool (and (coins n) (not (forgot n))))
(set-list missing 10)
