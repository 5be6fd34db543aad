; The Dragon protocol for cache coherence: for any number of caches, can two caches own a line, or a dirty copy stand
; beside another copy?
;
; Of the caches i have no copy, c a shared one, o a shared one that they own (newer than memory, which they write back
; when they give it up), e an exclusive one (the only copy, as memory has it), and d a dirty one (the only copy, newer
; than memory). No copy is ever made invalid: what is written to a shared line goes to all that have it, and who wrote
; last owns it. Any cache may give its copy up.
; Source: McCreight 1984 (The Dragon computer system), and Archibald and Baer, ACM Transactions on Computer Systems
; 4(4), 1986; counters and rules after Delzanno, CAV 2000 (Automatic verification of parameterized cache coherence
; protocols).
(define-fun state ((i Int) (c Int) (o Int) (e Int) (d Int)) Bool
  (and (>= i 0) (>= c 0) (>= o 0) (>= e 0) (>= d 0)))
(define-fun start ((i Int) (c Int) (o Int) (e Int) (d Int)) Bool
  (and (>= i 1) (= c 0) (= o 0) (= e 0) (= d 0)))
(define-fun bad ((i Int) (c Int) (o Int) (e Int) (d Int)) Bool
  (and (state i c o e d) (or (>= (+ o d) 2) (and (>= d 1) (>= (+ c o e) 1)))))
(echo "rounds")
; The rounds, backwards: round k has the states from which a bad one is at most k steps away. Each is built from the
; one before by the rules, and then said again in short, which the next round starts from.
(define-fun round1 ((i Int) (c Int) (o Int) (e Int) (d Int)) Bool
  (and (state i c o e d)
       (or (bad i c o e d)
           (and (>= i 1) (= (+ c o e d) 0) (bad (- i 1) c o (+ e 1) d))           ; read miss, no copy elsewhere
           (and (>= i 1) (>= (+ c o e d) 1) (bad (- i 1) (+ c e 1) (+ o d) 0 0))  ; read miss, copies elsewhere
           (and (>= i 1) (= (+ c o e d) 0) (bad (- i 1) c o e (+ d 1)))           ; write miss, no copy elsewhere
           (and (>= i 1) (>= (+ c o e d) 1) (bad (- i 1) (+ c o e d) 1 0 0))      ; write miss, copies elsewhere
           (and (>= e 1) (bad i c o (- e 1) (+ d 1)))                             ; write hit on an exclusive copy
           (and (= (+ c o) 1) (bad i 0 0 e (+ d 1)))                              ; write hit on the last one
           (and (>= (+ c o) 2) (bad i (- (+ c o) 1) 1 e d))                       ; write hit on one of several
           (and (>= c 1) (bad (+ i 1) (- c 1) o e d))                             ; a shared copy is given up
           (and (>= o 1) (bad (+ i 1) c (- o 1) e d))                             ; an owned copy is given up
           (and (>= e 1) (bad (+ i 1) c o (- e 1) d))                             ; an exclusive copy is given up
           (and (>= d 1) (bad (+ i 1) c o e (- d 1))))))                          ; a dirty copy is given up
(define-fun bad1 ((i Int) (c Int) (o Int) (e Int) (d Int)) Bool
  (and (state i c o e d) (or (>= (+ o e d) 2) (and (>= c 1) (>= (+ e d) 1)))))
(set-equal round1 bad1)
; Round 2 adds nothing to round 1: no further state leads to a bad one. And no start is among them.
(define-fun round2 ((i Int) (c Int) (o Int) (e Int) (d Int)) Bool
  (and (state i c o e d)
       (or (bad1 i c o e d)
           (and (>= i 1) (= (+ c o e d) 0) (bad1 (- i 1) c o (+ e 1) d))
           (and (>= i 1) (>= (+ c o e d) 1) (bad1 (- i 1) (+ c e 1) (+ o d) 0 0))
           (and (>= i 1) (= (+ c o e d) 0) (bad1 (- i 1) c o e (+ d 1)))
           (and (>= i 1) (>= (+ c o e d) 1) (bad1 (- i 1) (+ c o e d) 1 0 0))
           (and (>= e 1) (bad1 i c o (- e 1) (+ d 1)))
           (and (= (+ c o) 1) (bad1 i 0 0 e (+ d 1)))
           (and (>= (+ c o) 2) (bad1 i (- (+ c o) 1) 1 e d))
           (and (>= c 1) (bad1 (+ i 1) (- c 1) o e d))
           (and (>= o 1) (bad1 (+ i 1) c (- o 1) e d))
           (and (>= e 1) (bad1 (+ i 1) c o (- e 1) d))
           (and (>= d 1) (bad1 (+ i 1) c o e (- d 1))))))
(set-equal round2 bad1)
(define-fun unsafe ((i Int) (c Int) (o Int) (e Int) (d Int)) Bool
  (and (start i c o e d) (bad1 i c o e d)))
(set-empty unsafe)
; An invariant says the same without rounds: it holds at the start, no step leads out of it, and no bad state is in
; it.
(echo "invariant")
(define-fun inv ((i Int) (c Int) (o Int) (e Int) (d Int)) Bool
  (and (state i c o e d) (<= (+ o e d) 1) (or (= (+ e d) 0) (= c 0))))
(define-fun escape ((i Int) (c Int) (o Int) (e Int) (d Int)) Bool
  (and (inv i c o e d)
       (or (and (>= i 1) (= (+ c o e d) 0) (not (inv (- i 1) c o (+ e 1) d)))
           (and (>= i 1) (>= (+ c o e d) 1) (not (inv (- i 1) (+ c e 1) (+ o d) 0 0)))
           (and (>= i 1) (= (+ c o e d) 0) (not (inv (- i 1) c o e (+ d 1))))
           (and (>= i 1) (>= (+ c o e d) 1) (not (inv (- i 1) (+ c o e d) 1 0 0)))
           (and (>= e 1) (not (inv i c o (- e 1) (+ d 1))))
           (and (= (+ c o) 1) (not (inv i 0 0 e (+ d 1))))
           (and (>= (+ c o) 2) (not (inv i (- (+ c o) 1) 1 e d)))
           (and (>= c 1) (not (inv (+ i 1) (- c 1) o e d)))
           (and (>= o 1) (not (inv (+ i 1) c (- o 1) e d)))
           (and (>= e 1) (not (inv (+ i 1) c o (- e 1) d)))
           (and (>= d 1) (not (inv (+ i 1) c o e (- d 1)))))))
(set-subset start inv)
(set-empty escape)
(define-fun bad-inside ((i Int) (c Int) (o Int) (e Int) (d Int)) Bool
  (and (inv i c o e d) (bad i c o e d)))
(set-empty bad-inside)
; A slip: at a write hit on a shared copy the one who owned the line before owns it still. No start leads to a bad
; state in at most two steps, but some do in three. The least one:
(echo "slip")
(define-fun broken1 ((i Int) (c Int) (o Int) (e Int) (d Int)) Bool
  (and (state i c o e d)
       (or (bad i c o e d)
           (and (>= i 1) (= (+ c o e d) 0) (bad (- i 1) c o (+ e 1) d))           ; read miss, no copy elsewhere
           (and (>= i 1) (>= (+ c o e d) 1) (bad (- i 1) (+ c e 1) (+ o d) 0 0))  ; read miss, copies elsewhere
           (and (>= i 1) (= (+ c o e d) 0) (bad (- i 1) c o e (+ d 1)))           ; write miss, no copy elsewhere
           (and (>= i 1) (>= (+ c o e d) 1) (bad (- i 1) (+ c o e d) 1 0 0))      ; write miss, copies elsewhere
           (and (>= e 1) (bad i c o (- e 1) (+ d 1)))                             ; write hit on an exclusive copy
           (and (= (+ c o) 1) (bad i 0 0 e (+ d 1)))                              ; write hit on the last one
           (and (>= c 1) (>= (+ c o) 2) (bad i (- c 1) (+ o 1) e d))              ; write hit on one of several
           (and (>= c 1) (bad (+ i 1) (- c 1) o e d))                             ; a shared copy is given up
           (and (>= o 1) (bad (+ i 1) c (- o 1) e d))                             ; an owned copy is given up
           (and (>= e 1) (bad (+ i 1) c o (- e 1) d))                             ; an exclusive copy is given up
           (and (>= d 1) (bad (+ i 1) c o e (- d 1))))))                          ; a dirty copy is given up
(define-fun worse1 ((i Int) (c Int) (o Int) (e Int) (d Int)) Bool
  (and (state i c o e d) (or (>= (+ o e d) 2) (and (>= c 1) (>= (+ o e d) 1)))))
(set-equal broken1 worse1)
(define-fun broken2 ((i Int) (c Int) (o Int) (e Int) (d Int)) Bool
  (and (state i c o e d)
       (or (worse1 i c o e d)
           (and (>= i 1) (= (+ c o e d) 0) (worse1 (- i 1) c o (+ e 1) d))
           (and (>= i 1) (>= (+ c o e d) 1) (worse1 (- i 1) (+ c e 1) (+ o d) 0 0))
           (and (>= i 1) (= (+ c o e d) 0) (worse1 (- i 1) c o e (+ d 1)))
           (and (>= i 1) (>= (+ c o e d) 1) (worse1 (- i 1) (+ c o e d) 1 0 0))
           (and (>= e 1) (worse1 i c o (- e 1) (+ d 1)))
           (and (= (+ c o) 1) (worse1 i 0 0 e (+ d 1)))
           (and (>= c 1) (>= (+ c o) 2) (worse1 i (- c 1) (+ o 1) e d))
           (and (>= c 1) (worse1 (+ i 1) (- c 1) o e d))
           (and (>= o 1) (worse1 (+ i 1) c (- o 1) e d))
           (and (>= e 1) (worse1 (+ i 1) c o (- e 1) d))
           (and (>= d 1) (worse1 (+ i 1) c o e (- d 1))))))
(define-fun worse2 ((i Int) (c Int) (o Int) (e Int) (d Int)) Bool
  (and (state i c o e d) (or (>= (+ c o e d) 2) (and (>= i 1) (>= (+ c o e d) 1)))))
(set-equal broken2 worse2)
(define-fun broken3 ((i Int) (c Int) (o Int) (e Int) (d Int)) Bool
  (and (state i c o e d)
       (or (worse2 i c o e d)
           (and (>= i 1) (= (+ c o e d) 0) (worse2 (- i 1) c o (+ e 1) d))
           (and (>= i 1) (>= (+ c o e d) 1) (worse2 (- i 1) (+ c e 1) (+ o d) 0 0))
           (and (>= i 1) (= (+ c o e d) 0) (worse2 (- i 1) c o e (+ d 1)))
           (and (>= i 1) (>= (+ c o e d) 1) (worse2 (- i 1) (+ c o e d) 1 0 0))
           (and (>= e 1) (worse2 i c o (- e 1) (+ d 1)))
           (and (= (+ c o) 1) (worse2 i 0 0 e (+ d 1)))
           (and (>= c 1) (>= (+ c o) 2) (worse2 i (- c 1) (+ o 1) e d))
           (and (>= c 1) (worse2 (+ i 1) (- c 1) o e d))
           (and (>= o 1) (worse2 (+ i 1) c (- o 1) e d))
           (and (>= e 1) (worse2 (+ i 1) c o (- e 1) d))
           (and (>= d 1) (worse2 (+ i 1) c o e (- d 1))))))
(define-fun early ((i Int) (c Int) (o Int) (e Int) (d Int)) Bool
  (and (start i c o e d) (worse2 i c o e d)))
(set-empty early)
(declare-const i Int)
(declare-const c Int)
(declare-const o Int)
(declare-const e Int)
(declare-const d Int)
(assert (start i c o e d))
(assert (broken3 i c o e d))
(check-sat)
(get-value (i c o e d))
; Two caches, no copies. One writes and has a dirty copy, the other reads, which leaves the first as the owner, and
; writes.
(set-member worse2 1 0 0 0 1)
(set-member worse1 0 1 1 0 0)
(set-member bad 0 0 2 0 0)
