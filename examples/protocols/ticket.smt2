; A ticket lock with two clients: can both be in the critical section?
;
; Counter t is the next ticket, s the one that is served. The clients hold tickets a and b and stand at p and q: 0
; outside, 1 waiting, 2 inside. A client takes ticket t and counts t up in one step; it goes in when its ticket is
; served; when it leaves it counts s up.
; Source: Mellor-Crummey and Scott, ACM Transactions on Computer Systems 9(1), 1991, after Reed and Kanodia,
; Communications of the ACM 22(2), 1979; program counters and integers as in Bultan, Gerber and Pugh, ACM Transactions
; on Programming Languages and Systems 21(4), 1999.
(define-fun start ((t Int) (s Int) (a Int) (b Int) (p Int) (q Int)) Bool (and (= t s) (= p 0) (= q 0)))
; Backwards from all states the rounds would go on for ever, by clients with tickets that nobody gave out. So what
; every step keeps comes first: who is not outside has a ticket that was given out. The rounds stay within it.
(echo "what every step keeps")
(define-fun given ((t Int) (s Int) (a Int) (b Int) (p Int) (q Int)) Bool
  (and (<= 0 p 2) (<= 0 q 2) (or (= p 0) (< a t)) (or (= q 0) (< b t))))
(define-fun astray ((t Int) (s Int) (a Int) (b Int) (p Int) (q Int)) Bool
  (and (given t s a b p q)
       (or (and (= p 0) (not (given (+ t 1) s t b 1 q)))            ; the first client takes a ticket
           (and (= p 1) (= a s) (not (given t s a b 2 q)))          ; it goes in
           (and (= p 2) (not (given t (+ s 1) a b 0 q)))            ; it leaves
           (and (= q 0) (not (given (+ t 1) s a t p 1)))            ; and the second likewise
           (and (= q 1) (= b s) (not (given t s a b p 2)))
           (and (= q 2) (not (given t (+ s 1) a b p 0))))))
(set-subset start given)
(set-empty astray)
; The rounds, backwards: round k has the states from which a bad one is at most k steps away. Each is built from the
; one before by its rules, and then said again in short, which the next round starts from.
(echo "rounds")
(define-fun bad ((t Int) (s Int) (a Int) (b Int) (p Int) (q Int)) Bool
  (and (given t s a b p q) (= p 2) (= q 2)))
(define-fun round1 ((t Int) (s Int) (a Int) (b Int) (p Int) (q Int)) Bool
  (and (given t s a b p q)
       (or (bad t s a b p q)
           (and (= p 0) (bad (+ t 1) s t b 1 q))
           (and (= p 1) (= a s) (bad t s a b 2 q))
           (and (= p 2) (bad t (+ s 1) a b 0 q))
           (and (= q 0) (bad (+ t 1) s a t p 1))
           (and (= q 1) (= b s) (bad t s a b p 2))
           (and (= q 2) (bad t (+ s 1) a b p 0)))))
(define-fun bad1 ((t Int) (s Int) (a Int) (b Int) (p Int) (q Int)) Bool
  (and (given t s a b p q)
       (or (and (= p 2) (= q 2)) (and (= p 1) (= a s) (= q 2)) (and (= p 2) (= q 1) (= b s)))))
(set-equal round1 bad1)
(define-fun round2 ((t Int) (s Int) (a Int) (b Int) (p Int) (q Int)) Bool
  (and (given t s a b p q)
       (or (bad1 t s a b p q)
           (and (= p 0) (bad1 (+ t 1) s t b 1 q))
           (and (= p 1) (= a s) (bad1 t s a b 2 q))
           (and (= p 2) (bad1 t (+ s 1) a b 0 q))
           (and (= q 0) (bad1 (+ t 1) s a t p 1))
           (and (= q 1) (= b s) (bad1 t s a b p 2))
           (and (= q 2) (bad1 t (+ s 1) a b p 0)))))
(define-fun bad2 ((t Int) (s Int) (a Int) (b Int) (p Int) (q Int)) Bool
  (and (given t s a b p q)
       (or (and (or (= p 2) (and (= p 1) (= a s))) (or (= q 2) (and (= q 1) (= b s))))
           (and (= t s) (or (and (= p 0) (= q 2)) (and (= p 2) (= q 0)))))))
(set-equal round2 bad2)
; Round 3 adds nothing to round 2: no further state leads to a bad one. And no start is among them.
(define-fun round3 ((t Int) (s Int) (a Int) (b Int) (p Int) (q Int)) Bool
  (and (given t s a b p q)
       (or (bad2 t s a b p q)
           (and (= p 0) (bad2 (+ t 1) s t b 1 q))
           (and (= p 1) (= a s) (bad2 t s a b 2 q))
           (and (= p 2) (bad2 t (+ s 1) a b 0 q))
           (and (= q 0) (bad2 (+ t 1) s a t p 1))
           (and (= q 1) (= b s) (bad2 t s a b p 2))
           (and (= q 2) (bad2 t (+ s 1) a b p 0)))))
(set-equal round3 bad2)
(define-fun unsafe ((t Int) (s Int) (a Int) (b Int) (p Int) (q Int)) Bool
  (and (start t s a b p q) (bad2 t s a b p q)))
(set-empty unsafe)
; An invariant says the same without rounds: tickets that are held lie from s on and below t, no two are the same, and
; who is inside holds s. It holds at the start, no step leads out of it, and no bad state is in it.
(echo "invariant")
(define-fun inv ((t Int) (s Int) (a Int) (b Int) (p Int) (q Int)) Bool
  (and (<= 0 p 2) (<= 0 q 2) (<= s t)
       (or (= p 0) (and (<= s a) (< a t))) (or (= q 0) (and (<= s b) (< b t)))
       (=> (= p 2) (= a s)) (=> (= q 2) (= b s))
       (or (= p 0) (= q 0) (distinct a b))))
(define-fun escape ((t Int) (s Int) (a Int) (b Int) (p Int) (q Int)) Bool
  (and (inv t s a b p q)
       (or (and (= p 0) (not (inv (+ t 1) s t b 1 q)))
           (and (= p 1) (= a s) (not (inv t s a b 2 q)))
           (and (= p 2) (not (inv t (+ s 1) a b 0 q)))
           (and (= q 0) (not (inv (+ t 1) s a t p 1)))
           (and (= q 1) (= b s) (not (inv t s a b p 2)))
           (and (= q 2) (not (inv t (+ s 1) a b p 0))))))
(set-subset start inv)
(set-empty escape)
(define-fun bad-inside ((t Int) (s Int) (a Int) (b Int) (p Int) (q Int)) Bool
  (and (inv t s a b p q) (bad t s a b p q)))
(set-empty bad-inside)
; A slip: a client that finds nobody waiting or inside, that is t and s the same, goes in at once with ticket t, and t
; is not counted up. No start leads to a bad state in one step or none, but some do in two. The least one:
(echo "slip")
(define-fun both ((t Int) (s Int) (a Int) (b Int) (p Int) (q Int)) Bool (and (= p 2) (= q 2)))
(define-fun broken1 ((t Int) (s Int) (a Int) (b Int) (p Int) (q Int)) Bool
  (or (both t s a b p q)
      (and (= p 0) (both (+ t 1) s t b 1 q))
      (and (= p 0) (= t s) (both t s t b 2 q))
      (and (= p 1) (= a s) (both t s a b 2 q))
      (and (= p 2) (both t (+ s 1) a b 0 q))
      (and (= q 0) (both (+ t 1) s a t p 1))
      (and (= q 0) (= t s) (both t s a t p 2))
      (and (= q 1) (= b s) (both t s a b p 2))
      (and (= q 2) (both t (+ s 1) a b p 0))))
(define-fun worse1 ((t Int) (s Int) (a Int) (b Int) (p Int) (q Int)) Bool
  (or (and (= p 2) (= q 2))
      (and (= q 2) (or (and (= p 1) (= a s)) (and (= p 0) (= t s))))
      (and (= p 2) (or (and (= q 1) (= b s)) (and (= q 0) (= t s))))))
(set-equal broken1 worse1)
(define-fun broken2 ((t Int) (s Int) (a Int) (b Int) (p Int) (q Int)) Bool
  (or (worse1 t s a b p q)
      (and (= p 0) (worse1 (+ t 1) s t b 1 q))
      (and (= p 0) (= t s) (worse1 t s t b 2 q))
      (and (= p 1) (= a s) (worse1 t s a b 2 q))
      (and (= p 2) (worse1 t (+ s 1) a b 0 q))
      (and (= q 0) (worse1 (+ t 1) s a t p 1))
      (and (= q 0) (= t s) (worse1 t s a t p 2))
      (and (= q 1) (= b s) (worse1 t s a b p 2))
      (and (= q 2) (worse1 t (+ s 1) a b p 0))))
(define-fun early ((t Int) (s Int) (a Int) (b Int) (p Int) (q Int)) Bool
  (and (start t s a b p q) (worse1 t s a b p q)))
(set-empty early)
(declare-const t Int)
(declare-const s Int)
(declare-const a Int)
(declare-const b Int)
(declare-const p Int)
(declare-const q Int)
(assert (start t s a b p q))
(assert (broken2 t s a b p q))
(check-sat)
(get-value (t s a b p q))
; The first client goes in at once; t and s are still the same, so the second does too.
(set-member worse1 0 0 0 0 2 0)
(set-member both 0 0 0 0 2 2)
