; Readers and writers share a file: r readers and w writers are at work. Is "no writer beside a reader or another
; writer" kept by every step, and can a step always be taken?
(define-fun inv ((r Int) (w Int)) Bool
  (and (>= r 0) (>= w 0) (<= w 1) (or (= r 0) (= w 0))))
(define-fun step ((r Int) (w Int) (r2 Int) (w2 Int)) Bool
  (or (and (= w 0) (= r2 (+ r 1)) (= w2 w))
      (and (> r 0) (= r2 (- r 1)) (= w2 w))
      (and (= r 0) (= w 0) (= r2 r) (= w2 1))
      (and (= w 1) (= r2 r) (= w2 0))))
(push)
(assert (forall ((r Int) (w Int) (r2 Int) (w2 Int))
  (=> (and (inv r w) (step r w r2 w2)) (inv r2 w2))))
(assert (forall ((r Int) (w Int))
  (=> (inv r w) (exists ((r2 Int) (w2 Int)) (step r w r2 w2)))))
(check-sat)
(pop)
; A writer that does not look at the readers breaks it. From which state?
(define-fun hasty ((r Int) (w Int) (r2 Int) (w2 Int)) Bool
  (and (= w 0) (= r2 r) (= w2 1)))
(declare-const r Int)
(declare-const w Int)
(assert (inv r w))
(assert (exists ((r2 Int) (w2 Int)) (and (hasty r w r2 w2) (not (inv r2 w2)))))
(check-sat)
(get-value (r w))
