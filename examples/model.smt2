; Two accounts hold 7 together, the first less than minus 3 and no multiple of 5. What may they hold? The model is the
; least solution: the fewest binary digits, then the first digits. A constant that nothing speaks of is 0.
(set-logic QF_LIA)
(set-option :produce-models true)
(declare-const a Int)
(declare-fun |the other| () Int)
(declare-const unused Int)
(assert (= (+ a |the other|) 7))
(assert (< a (- 3)))
(assert (not ((_ divisible 5) a)))
(check-sat)
(get-model)
(get-value (|the other| a))
