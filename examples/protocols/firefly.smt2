; The Firefly protocol for cache coherence: for any number of caches, can a dirty copy of a line stand beside another
; dirty or a shared one?
;
; Of the caches i have no copy, s a shared one, e an exclusive one (the only copy, as memory has it), and d a dirty
; one (the only copy, newer than memory). No copy is ever made invalid: what is written to a shared line goes to all
; that have it and to memory, so a write hit on one of several shared copies changes no counter, and is left out. On
; the last shared copy it makes it exclusive. A write miss makes the only copy dirty where no other cache has the
; line, and else all copies shared. Any cache may give its copy up.
; Source: Thacker and Stewart, ASPLOS 1987, and Archibald and Baer, ACM Transactions on Computer Systems 4(4), 1986;
; counters and rules after Delzanno, CAV 2000 (Automatic verification of parameterized cache coherence protocols).
(define-fun state ((i Int) (s Int) (e Int) (d Int)) Bool
  (and (>= i 0) (>= s 0) (>= e 0) (>= d 0)))
(define-fun start ((i Int) (s Int) (e Int) (d Int)) Bool
  (and (>= i 1) (= s 0) (= e 0) (= d 0)))
(define-fun bad ((i Int) (s Int) (e Int) (d Int)) Bool
  (and (state i s e d) (or (>= d 2) (and (>= d 1) (>= s 1)))))
(echo "rounds")
; The rounds, backwards: round k has the states from which a bad one is at most k steps away. Each is built from the
; one before by the rules, and then said again in short, which the next round starts from.
(define-fun round1 ((i Int) (s Int) (e Int) (d Int)) Bool
  (and (state i s e d)
       (or (bad i s e d)
           (and (>= i 1) (= (+ s e d) 0) (bad (- i 1) s (+ e 1) d))       ; read miss, no copy elsewhere
           (and (>= i 1) (>= d 1) (bad (- i 1) (+ s 2) e (- d 1)))        ; read miss, a dirty copy elsewhere
           (and (>= i 1) (>= (+ s e) 1) (bad (- i 1) (+ s e 1) 0 d))      ; read miss, clean copies elsewhere
           (and (>= e 1) (bad i s (- e 1) (+ d 1)))                       ; write hit on an exclusive copy
           (and (= s 1) (bad i 0 (+ e 1) d))                              ; write hit on the last shared copy
           (and (>= i 1) (= (+ s e d) 0) (bad (- i 1) s e (+ d 1)))       ; write miss, no copy elsewhere
           (and (>= i 1) (>= (+ s e d) 1) (bad (- i 1) (+ s e d 1) 0 0))  ; write miss, copies elsewhere
           (and (>= d 1) (bad (+ i 1) s e (- d 1)))                       ; a dirty copy is given up
           (and (>= s 1) (bad (+ i 1) (- s 1) e d))                       ; a shared copy is given up
           (and (>= e 1) (bad (+ i 1) s (- e 1) d)))))                    ; an exclusive copy is given up
(define-fun bad1 ((i Int) (s Int) (e Int) (d Int)) Bool
  (and (state i s e d) (or (>= d 2) (and (>= e 1) (>= d 1)) (and (>= s 1) (>= (+ e d) 1)))))
(set-equal round1 bad1)
(define-fun round2 ((i Int) (s Int) (e Int) (d Int)) Bool
  (and (state i s e d)
       (or (bad1 i s e d)
           (and (>= i 1) (= (+ s e d) 0) (bad1 (- i 1) s (+ e 1) d))
           (and (>= i 1) (>= d 1) (bad1 (- i 1) (+ s 2) e (- d 1)))
           (and (>= i 1) (>= (+ s e) 1) (bad1 (- i 1) (+ s e 1) 0 d))
           (and (>= e 1) (bad1 i s (- e 1) (+ d 1)))
           (and (= s 1) (bad1 i 0 (+ e 1) d))
           (and (>= i 1) (= (+ s e d) 0) (bad1 (- i 1) s e (+ d 1)))
           (and (>= i 1) (>= (+ s e d) 1) (bad1 (- i 1) (+ s e d 1) 0 0))
           (and (>= d 1) (bad1 (+ i 1) s e (- d 1)))
           (and (>= s 1) (bad1 (+ i 1) (- s 1) e d))
           (and (>= e 1) (bad1 (+ i 1) s (- e 1) d)))))
(define-fun bad2 ((i Int) (s Int) (e Int) (d Int)) Bool
  (and (state i s e d) (or (>= (+ e d) 2) (and (>= s 1) (>= (+ e d) 1)))))
(set-equal round2 bad2)
; Round 3 adds nothing to round 2: no further state leads to a bad one. And no start is among them.
(define-fun round3 ((i Int) (s Int) (e Int) (d Int)) Bool
  (and (state i s e d)
       (or (bad2 i s e d)
           (and (>= i 1) (= (+ s e d) 0) (bad2 (- i 1) s (+ e 1) d))
           (and (>= i 1) (>= d 1) (bad2 (- i 1) (+ s 2) e (- d 1)))
           (and (>= i 1) (>= (+ s e) 1) (bad2 (- i 1) (+ s e 1) 0 d))
           (and (>= e 1) (bad2 i s (- e 1) (+ d 1)))
           (and (= s 1) (bad2 i 0 (+ e 1) d))
           (and (>= i 1) (= (+ s e d) 0) (bad2 (- i 1) s e (+ d 1)))
           (and (>= i 1) (>= (+ s e d) 1) (bad2 (- i 1) (+ s e d 1) 0 0))
           (and (>= d 1) (bad2 (+ i 1) s e (- d 1)))
           (and (>= s 1) (bad2 (+ i 1) (- s 1) e d))
           (and (>= e 1) (bad2 (+ i 1) s (- e 1) d)))))
(set-equal round3 bad2)
(define-fun unsafe ((i Int) (s Int) (e Int) (d Int)) Bool
  (and (start i s e d) (bad2 i s e d)))
(set-empty unsafe)
; An invariant says the same without rounds: it holds at the start, no step leads out of it, and no bad state is in
; it.
(echo "invariant")
(define-fun inv ((i Int) (s Int) (e Int) (d Int)) Bool
  (and (state i s e d) (<= (+ e d) 1) (or (= (+ e d) 0) (= s 0))))
(define-fun escape ((i Int) (s Int) (e Int) (d Int)) Bool
  (and (inv i s e d)
       (or (and (>= i 1) (= (+ s e d) 0) (not (inv (- i 1) s (+ e 1) d)))
           (and (>= i 1) (>= d 1) (not (inv (- i 1) (+ s 2) e (- d 1))))
           (and (>= i 1) (>= (+ s e) 1) (not (inv (- i 1) (+ s e 1) 0 d)))
           (and (>= e 1) (not (inv i s (- e 1) (+ d 1))))
           (and (= s 1) (not (inv i 0 (+ e 1) d)))
           (and (>= i 1) (= (+ s e d) 0) (not (inv (- i 1) s e (+ d 1))))
           (and (>= i 1) (>= (+ s e d) 1) (not (inv (- i 1) (+ s e d 1) 0 0)))
           (and (>= d 1) (not (inv (+ i 1) s e (- d 1))))
           (and (>= s 1) (not (inv (+ i 1) (- s 1) e d)))
           (and (>= e 1) (not (inv (+ i 1) s (- e 1) d))))))
(set-subset start inv)
(set-empty escape)
(define-fun bad-inside ((i Int) (s Int) (e Int) (d Int)) Bool
  (and (inv i s e d) (bad i s e d)))
(set-empty bad-inside)
; A slip: a write hit takes any shared copy for the last one. No start leads to a bad state in at most three steps,
; but some do in four. The least one:
(echo "slip")
(define-fun broken1 ((i Int) (s Int) (e Int) (d Int)) Bool
  (and (state i s e d)
       (or (bad i s e d)
           (and (>= i 1) (= (+ s e d) 0) (bad (- i 1) s (+ e 1) d))       ; read miss, no copy elsewhere
           (and (>= i 1) (>= d 1) (bad (- i 1) (+ s 2) e (- d 1)))        ; read miss, a dirty copy elsewhere
           (and (>= i 1) (>= (+ s e) 1) (bad (- i 1) (+ s e 1) 0 d))      ; read miss, clean copies elsewhere
           (and (>= e 1) (bad i s (- e 1) (+ d 1)))                       ; write hit on an exclusive copy
           (and (>= s 1) (bad i (- s 1) (+ e 1) d))                       ; write hit on the last shared copy
           (and (>= i 1) (= (+ s e d) 0) (bad (- i 1) s e (+ d 1)))       ; write miss, no copy elsewhere
           (and (>= i 1) (>= (+ s e d) 1) (bad (- i 1) (+ s e d 1) 0 0))  ; write miss, copies elsewhere
           (and (>= d 1) (bad (+ i 1) s e (- d 1)))                       ; a dirty copy is given up
           (and (>= s 1) (bad (+ i 1) (- s 1) e d))                       ; a shared copy is given up
           (and (>= e 1) (bad (+ i 1) s (- e 1) d)))))                    ; an exclusive copy is given up
(define-fun worse1 ((i Int) (s Int) (e Int) (d Int)) Bool
  (and (state i s e d) (or (>= d 2) (and (>= e 1) (>= d 1)) (and (>= s 1) (>= (+ e d) 1)))))
(set-equal broken1 worse1)
(define-fun broken2 ((i Int) (s Int) (e Int) (d Int)) Bool
  (and (state i s e d)
       (or (worse1 i s e d)
           (and (>= i 1) (= (+ s e d) 0) (worse1 (- i 1) s (+ e 1) d))
           (and (>= i 1) (>= d 1) (worse1 (- i 1) (+ s 2) e (- d 1)))
           (and (>= i 1) (>= (+ s e) 1) (worse1 (- i 1) (+ s e 1) 0 d))
           (and (>= e 1) (worse1 i s (- e 1) (+ d 1)))
           (and (>= s 1) (worse1 i (- s 1) (+ e 1) d))
           (and (>= i 1) (= (+ s e d) 0) (worse1 (- i 1) s e (+ d 1)))
           (and (>= i 1) (>= (+ s e d) 1) (worse1 (- i 1) (+ s e d 1) 0 0))
           (and (>= d 1) (worse1 (+ i 1) s e (- d 1)))
           (and (>= s 1) (worse1 (+ i 1) (- s 1) e d))
           (and (>= e 1) (worse1 (+ i 1) s (- e 1) d)))))
(define-fun worse2 ((i Int) (s Int) (e Int) (d Int)) Bool
  (and (state i s e d) (or (>= (+ e d) 2) (and (>= s 1) (>= (+ e d) 1)) (>= s 2))))
(set-equal broken2 worse2)
(define-fun broken3 ((i Int) (s Int) (e Int) (d Int)) Bool
  (and (state i s e d)
       (or (worse2 i s e d)
           (and (>= i 1) (= (+ s e d) 0) (worse2 (- i 1) s (+ e 1) d))
           (and (>= i 1) (>= d 1) (worse2 (- i 1) (+ s 2) e (- d 1)))
           (and (>= i 1) (>= (+ s e) 1) (worse2 (- i 1) (+ s e 1) 0 d))
           (and (>= e 1) (worse2 i s (- e 1) (+ d 1)))
           (and (>= s 1) (worse2 i (- s 1) (+ e 1) d))
           (and (>= i 1) (= (+ s e d) 0) (worse2 (- i 1) s e (+ d 1)))
           (and (>= i 1) (>= (+ s e d) 1) (worse2 (- i 1) (+ s e d 1) 0 0))
           (and (>= d 1) (worse2 (+ i 1) s e (- d 1)))
           (and (>= s 1) (worse2 (+ i 1) (- s 1) e d))
           (and (>= e 1) (worse2 (+ i 1) s (- e 1) d)))))
(define-fun worse3 ((i Int) (s Int) (e Int) (d Int)) Bool
  (and (state i s e d) (or (>= (+ e d) 2) (>= s 2) (and (>= (+ s e d) 1) (>= (+ i s e d) 2)))))
(set-equal broken3 worse3)
(define-fun broken4 ((i Int) (s Int) (e Int) (d Int)) Bool
  (and (state i s e d)
       (or (worse3 i s e d)
           (and (>= i 1) (= (+ s e d) 0) (worse3 (- i 1) s (+ e 1) d))
           (and (>= i 1) (>= d 1) (worse3 (- i 1) (+ s 2) e (- d 1)))
           (and (>= i 1) (>= (+ s e) 1) (worse3 (- i 1) (+ s e 1) 0 d))
           (and (>= e 1) (worse3 i s (- e 1) (+ d 1)))
           (and (>= s 1) (worse3 i (- s 1) (+ e 1) d))
           (and (>= i 1) (= (+ s e d) 0) (worse3 (- i 1) s e (+ d 1)))
           (and (>= i 1) (>= (+ s e d) 1) (worse3 (- i 1) (+ s e d 1) 0 0))
           (and (>= d 1) (worse3 (+ i 1) s e (- d 1)))
           (and (>= s 1) (worse3 (+ i 1) (- s 1) e d))
           (and (>= e 1) (worse3 (+ i 1) s (- e 1) d)))))
(define-fun early ((i Int) (s Int) (e Int) (d Int)) Bool
  (and (start i s e d) (worse3 i s e d)))
(set-empty early)
(declare-const i Int)
(declare-const s Int)
(declare-const e Int)
(declare-const d Int)
(assert (start i s e d))
(assert (broken4 i s e d))
(check-sat)
(get-value (i s e d))
; Two caches, no copies. Both read, one after the other; one writes and takes its copy for the only one; it writes
; again, and tells nobody.
(set-member worse3 1 0 1 0)
(set-member worse2 0 2 0 0)
(set-member worse1 0 1 1 0)
(set-member bad 0 1 0 1)
