from run import *
run('a1-30-before-31',[
 ('specs/File.antt','rangesTable ls = cond (ascending 0 ls) (cond (covering 0 ls) (boundedTable (entriesOf ls)) (number 30)) (number 31)','rangesTable ls = cond (covering 0 ls) (cond (ascending 0 ls) (boundedTable (entriesOf ls)) (number 31)) (number 30)'),
],'''pub refuted : Loads → ⊥
'''+ALL+'''
refuted l =
    let e = l .only (ranges (line 1 0 0 ∷ [])) (number 31) '''+by(8)+''' (wrongOrder (line 1 0 0 ∷ []) (record { bytes = refl }) (λ u. omega (arith, u .0)) refl) in
    apart 31 30 (inr (omega arith)) (ap numberIn e)
''')
