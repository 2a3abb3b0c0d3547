from run import *
run('a30-another-kind-of-line',[('specs/Ranges.antt','  line : ℕ → ℕ → ℕ → Line','  line : ℕ → ℕ → ℕ → Line\n  gap : Line')],None)
run('a31-first-value-last',[('specs/Ranges.antt','bytesOf (line a z v ∷ ls) = a ∷ z ∷ v ∷ bytesOf ls','bytesOf (line a z v ∷ ls) = a ∷ v ∷ z ∷ bytesOf ls'),('specs/Ranges.antt','linesIn (a ∷ z ∷ v ∷ bytes) = line a z v ∷ linesIn bytes','linesIn (a ∷ v ∷ z ∷ bytes) = line a z v ∷ linesIn bytes')],
'''pub refuted : Loads → ⊥
unfolding bytesOf
refuted l = apart 2 1 (inr (omega arith)) (ap (λ (x : List ℕ). getD x 1 0) (l .each-line 0 1 2 []))
''')
