; A ticket lock with three clients: can two of them be served at once?
;
; Counter t is the next ticket, s the one that is served. The clients hold tickets a, b and c, or -1 where they hold
; none. A client takes ticket t and counts t up in one step; one whose ticket is served may be in the critical
; section, and when it leaves it counts s up. So no counter is needed for where a client stands; ticket.smt2 has
; these.
; Source: Mellor-Crummey and Scott, ACM Transactions on Computer Systems 9(1), 1991, after Reed and Kanodia,
; Communications of the ACM 22(2), 1979.
(define-fun start ((t Int) (s Int) (a Int) (b Int) (c Int)) Bool
  (and (>= s 0) (= t s) (= a b c (- 1))))
; What every step keeps: tickets that are held were given out. The rounds stay within it.
(echo "what every step keeps")
(define-fun given ((t Int) (s Int) (a Int) (b Int) (c Int)) Bool
  (and (>= t 0) (>= s 0) (<= (- 1) a) (< a t) (<= (- 1) b) (< b t) (<= (- 1) c) (< c t)))
(define-fun astray ((t Int) (s Int) (a Int) (b Int) (c Int)) Bool
  (and (given t s a b c)
       (or (and (= a (- 1)) (not (given (+ t 1) s t b c)))     ; the first client takes a ticket
           (and (= a s) (not (given t (+ s 1) (- 1) b c)))     ; it leaves
           (and (= b (- 1)) (not (given (+ t 1) s a t c)))     ; and the others likewise
           (and (= b s) (not (given t (+ s 1) a (- 1) c)))
           (and (= c (- 1)) (not (given (+ t 1) s a b t)))
           (and (= c s) (not (given t (+ s 1) a b (- 1)))))))
(set-subset start given)
(set-empty astray)
; The rounds, backwards: round k has the states from which a bad one is at most k steps away. Round 2 adds nothing to
; round 1: no further state leads to a bad one. And no start is among them.
(echo "rounds")
(define-fun bad ((t Int) (s Int) (a Int) (b Int) (c Int)) Bool
  (and (given t s a b c) (or (= a b s) (= a c s) (= b c s))))
(define-fun round1 ((t Int) (s Int) (a Int) (b Int) (c Int)) Bool
  (and (given t s a b c)
       (or (bad t s a b c)
           (and (= a (- 1)) (bad (+ t 1) s t b c))
           (and (= a s) (bad t (+ s 1) (- 1) b c))
           (and (= b (- 1)) (bad (+ t 1) s a t c))
           (and (= b s) (bad t (+ s 1) a (- 1) c))
           (and (= c (- 1)) (bad (+ t 1) s a b t))
           (and (= c s) (bad t (+ s 1) a b (- 1))))))
(define-fun bad1 ((t Int) (s Int) (a Int) (b Int) (c Int)) Bool
  (and (given t s a b c)
       (or (= a b s) (= a c s) (= b c s)
           (and (= a b (+ s 1)) (= c s)) (and (= a c (+ s 1)) (= b s)) (and (= b c (+ s 1)) (= a s)))))
(set-equal round1 bad1)
(define-fun round2 ((t Int) (s Int) (a Int) (b Int) (c Int)) Bool
  (and (given t s a b c)
       (or (bad1 t s a b c)
           (and (= a (- 1)) (bad1 (+ t 1) s t b c))
           (and (= a s) (bad1 t (+ s 1) (- 1) b c))
           (and (= b (- 1)) (bad1 (+ t 1) s a t c))
           (and (= b s) (bad1 t (+ s 1) a (- 1) c))
           (and (= c (- 1)) (bad1 (+ t 1) s a b t))
           (and (= c s) (bad1 t (+ s 1) a b (- 1))))))
(set-equal round2 bad1)
(define-fun unsafe ((t Int) (s Int) (a Int) (b Int) (c Int)) Bool
  (and (start t s a b c) (bad1 t s a b c)))
(set-empty unsafe)
; An invariant says the same without rounds: tickets that are held lie from s on and below t, and no two are the same.
; It holds at the start, no step leads out of it, and no bad state is in it.
(echo "invariant")
(define-fun inv ((t Int) (s Int) (a Int) (b Int) (c Int)) Bool
  (and (<= 0 s t)
       (or (= a (- 1)) (and (<= s a) (< a t) (distinct a b) (distinct a c)))
       (or (= b (- 1)) (and (<= s b) (< b t) (distinct b c)))
       (or (= c (- 1)) (and (<= s c) (< c t)))))
(define-fun escape ((t Int) (s Int) (a Int) (b Int) (c Int)) Bool
  (and (inv t s a b c)
       (or (and (= a (- 1)) (not (inv (+ t 1) s t b c)))
           (and (= a s) (not (inv t (+ s 1) (- 1) b c)))
           (and (= b (- 1)) (not (inv (+ t 1) s a t c)))
           (and (= b s) (not (inv t (+ s 1) a (- 1) c)))
           (and (= c (- 1)) (not (inv (+ t 1) s a b t)))
           (and (= c s) (not (inv t (+ s 1) a b (- 1)))))))
(set-subset start inv)
(set-empty escape)
(define-fun bad-inside ((t Int) (s Int) (a Int) (b Int) (c Int)) Bool
  (and (inv t s a b c) (bad t s a b c)))
(set-empty bad-inside)
; A slip: a client takes ticket t in one step and counts t up in another, and may look at s between. No start leads to
; a bad state in one step or none, but some do in two. The least one:
(echo "slip")
(define-fun range ((t Int) (s Int) (a Int) (b Int) (c Int)) Bool
  (and (>= t 0) (>= s 0) (>= a (- 1)) (>= b (- 1)) (>= c (- 1))))
(define-fun both ((t Int) (s Int) (a Int) (b Int) (c Int)) Bool
  (and (range t s a b c) (or (= a b s) (= a c s) (= b c s))))
(define-fun broken1 ((t Int) (s Int) (a Int) (b Int) (c Int)) Bool
  (and (range t s a b c)
       (or (both t s a b c)
           (and (= a (- 1)) (both t s t b c))
           (and (= a t) (both (+ t 1) s a b c))
           (and (= a s) (both t (+ s 1) (- 1) b c))
           (and (= b (- 1)) (both t s a t c))
           (and (= b t) (both (+ t 1) s a b c))
           (and (= b s) (both t (+ s 1) a (- 1) c))
           (and (= c (- 1)) (both t s a b t))
           (and (= c t) (both (+ t 1) s a b c))
           (and (= c s) (both t (+ s 1) a b (- 1))))))
(define-fun worse1 ((t Int) (s Int) (a Int) (b Int) (c Int)) Bool
  (and (range t s a b c)
       (or (= a b s) (= a c s) (= b c s)
           (and (= a b (+ s 1)) (= c s)) (and (= a c (+ s 1)) (= b s)) (and (= b c (+ s 1)) (= a s))
           (and (= t s) (or (and (= a (- 1)) (or (= b s) (= c s)))
                            (and (= b (- 1)) (or (= a s) (= c s)))
                            (and (= c (- 1)) (or (= a s) (= b s))))))))
(set-equal broken1 worse1)
(define-fun broken2 ((t Int) (s Int) (a Int) (b Int) (c Int)) Bool
  (and (range t s a b c)
       (or (worse1 t s a b c)
           (and (= a (- 1)) (worse1 t s t b c))
           (and (= a t) (worse1 (+ t 1) s a b c))
           (and (= a s) (worse1 t (+ s 1) (- 1) b c))
           (and (= b (- 1)) (worse1 t s a t c))
           (and (= b t) (worse1 (+ t 1) s a b c))
           (and (= b s) (worse1 t (+ s 1) a (- 1) c))
           (and (= c (- 1)) (worse1 t s a b t))
           (and (= c t) (worse1 (+ t 1) s a b c))
           (and (= c s) (worse1 t (+ s 1) a b (- 1))))))
(define-fun early ((t Int) (s Int) (a Int) (b Int) (c Int)) Bool
  (and (start t s a b c) (worse1 t s a b c)))
(set-empty early)
(declare-const t Int)
(declare-const s Int)
(declare-const a Int)
(declare-const b Int)
(declare-const c Int)
(assert (start t s a b c))
(assert (broken2 t s a b c))
(check-sat)
(get-value (t s a b c))
; A client takes ticket 0, and before it counts t up the next one takes ticket 0 too.
(set-member worse1 0 0 (- 1) (- 1) 0)
(set-member both 0 0 0 (- 1) 0)
