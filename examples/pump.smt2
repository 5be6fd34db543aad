; A tank with a pump, which a mode bit turns on and off. While it is on, each step takes three units out, and a step
; that begins with fewer than six turns it off. While it is off, each step lets one unit in, and a step that begins
; with ten or more turns it on. It begins empty, with the pump off. Does it stay between empty and thirteen units?
(define-fun init ((on Bool) (n Int)) Bool (and (not on) (= n 0)))
(define-fun step ((on Bool) (n Int) (then Bool) (m Int)) Bool
  (and (ite on (= m (- n 3)) (= m (+ n 1)))
       (= then (ite on (>= n 6) (>= n 10)))))
(define-fun safe ((on Bool) (n Int)) Bool (<= 0 n 13))
(define-fun after-safe ((on Bool) (n Int)) Bool
  (exists ((b Bool) (k Int)) (and (safe b k) (step b k on n))))
(set-subset init safe)
(set-subset after-safe safe)
; That much alone is not kept: from which state does a step leave it?
(declare-const on Bool)
(declare-const n Int)
(declare-const then Bool)
(declare-const m Int)
(push)
(assert (and (safe on n) (step on n then m) (not (safe then m))))
(check-sat)
(get-model)
(pop)
; With what the mode says it is: the pump is on from three units up only, and eleven are the most.
(define-fun inv ((on Bool) (n Int)) Bool (ite on (<= 3 n 11) (<= 0 n 10)))
(define-fun after-inv ((on Bool) (n Int)) Bool
  (exists ((b Bool) (k Int)) (and (inv b k) (step b k on n))))
(set-subset init inv)
(set-subset after-inv inv)
(set-subset inv safe)
(set-member after-inv true 11)
; Can a tank in the invariant be emptied and filled again, that is, can each mode be left?
(assert (forall ((b Bool)) (exists ((k Int) (l Int)) (and (inv b k) (step b k (not b) l)))))
(check-sat)
