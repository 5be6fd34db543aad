; In how many ways do boards of 3 and of 2 make a length of 12? Pairs are listed by the length of their two's
; complement words, and then digit by digit from the lowest on; where there are fewer than asked for, all are listed.
(define-fun ways ((threes Int) (twos Int)) Bool
  (and (>= threes 0) (>= twos 0) (= (+ (* 3 threes) (* 2 twos)) 12)))
(set-finite ways)
(set-list ways 10)
; With boards that may be taken away there are infinitely many ways; these are the first four.
(define-fun signed ((threes Int) (twos Int)) Bool
  (= (+ (* 3 threes) (* 2 twos)) 12))
(set-finite signed)
(set-list signed 4)
(set-subset ways signed)
