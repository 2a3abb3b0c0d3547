from run import *
import sys
RT='rangesTable ls = cond (ascending 0 ls) (cond (covering 0 ls) (boundedTable (entriesOf ls)) (number 30)) (number 31)'
REC='(record { bytes = refl })'
def loads(body,pre=''): return pre+'''pub refuted : Loads → ⊥
'''+ALL+'''
refuted l =
'''+body
def turns(body,pre=''): return pre+'''pub refuted : Turns → ⊥
'''+ALL+'''
refuted t =
'''+body
def order(ls,n,why,wrong,sym='inr'):
    return loads(f'''    let e = l .only (ranges ({ls})) (number 31) {by(n)} (wrongOrder ({ls}) {REC} ({why}) refl) in
    apart 31 {wrong} ({sym} (omega arith)) (ap numberIn e)
''')
def uncovered(ls,n,asc,i,bare,wrong,s='inr'):
    return loads(f'''    let e = l .only (ranges ({ls})) (number 30) {by(n)} (leftUncovered ({ls}) {REC} {asc} {i} (omega arith) bare refl) in
    apart 30 {wrong} ({s} (omega arith)) (ap numberIn e)
''',f'''bare : Covered {i} ({ls}) → ⊥
{bare}
''')
A={}
# control: the right definitions
A['a00-control']=([],order('line 1 0 0 ∷ []',8,'λ u. omega (arith, u .0)','30'))
A['a02-29-before-30']=([('specs/File.antt',RT,'rangesTable ls = cond (ascending 0 ls) (cond (allGood 0 (entriesOf ls)) (cond (covering 0 ls) (result (entriesOf ls)) (number 30)) (number 29)) (number 31)')],
 uncovered('line 0 0 1 ∷ []',8,'(omega arith, tt, tt)',1,'bare (inl k) = omega (arith, k .1)\nbare (inr k) = k','29'))
A['a03-29-before-31']=([('specs/File.antt',RT,'rangesTable ls = cond (allGood 0 (entriesOf ls)) (cond (ascending 0 ls) (cond (covering 0 ls) (result (entriesOf ls)) (number 30)) (number 31)) (number 29)')],
 order('line 0 0 1 ∷ line 0 0 1 ∷ []',11,'λ u. omega (arith, u .1)','29'))
A['a04-21-first']=([('specs/Turned.antt','turnRow (number n) room = number n','turnRow (number n) room = cond (leb 5 room) (number n) (number 21)'),
  ('src/turn.rt','    let loaded = load(built_in(), file);','    if out.len() < 5 {\n        return TurnAnswer::Refused(Refusal::Room);\n    }\n    let loaded = load(built_in(), file);')],
 turns('''    let w : Turned (turnedOf []) [] (Refused Room) [] = record { answer = refl; bytes = refl } in
    let e = t .refused [] 28 [] (Refused Room) [] w refl .0 in
    apart 21 28 (inl (omega arith)) (ap numberIn e)
'''))
A['a05-refused-turn-writes']=([('specs/Turned.antt','turnedIn (number n) out = out','turnedIn (number n) out = sets out 0 (0 ∷ [])'),('specs/Turned.antt','use mathlib.Core.List.{List, _∷_}','use mathlib.Core.List.{List, [], _∷_}')],
 turns('''    let w : Turned (turnedOf []) (1 ∷ []) (Refused Format) (0 ∷ []) = record { answer = refl; bytes = refl } in
    let e = t .refused [] 28 (1 ∷ []) (Refused Format) (0 ∷ []) w refl .1 in
    apart 0 1 (inl (omega arith)) (ap (λ (x : List ℕ). getD x 0 0) e)
'''))
A['a06-too-few-writes-head']=([('specs/Turned.antt','turnedIn (result g) out = cond (leb (length g) (length out)) (sets out 0 g) out','turnedIn (result g) out = cond (leb (length g) (length out)) (sets out 0 g) (sets out 0 (take (length out) g))'),
  ('specs/Turned.antt','use lib.ListN.{length}','use lib.ListN.{length, take}')],
 turns('''    let w : Turned (turnedOf (ranges two)) (1 ∷ []) (Refused Room) (0x50 ∷ []) = record { answer = refl; bytes = refl } in
    let e = t .too-few (ranges two) (fileOf 1 ones) (1 ∷ []) (Refused Room) (0x50 ∷ []) w refl (omega arith) .1 in
    apart 0x50 1 (inr (omega arith)) (ap (λ (x : List ℕ). getD x 0 0) e)
'''))
A['a07-rest-zeroed']=([('specs/Turned.antt','turnedIn (result g) out = cond (leb (length g) (length out)) (sets out 0 g) out','turnedIn (result g) out = cond (leb (length g) (length out)) (g ++ replicate (length out - length g) 0) out'),
  ('specs/Turned.antt','use lib.ListN.{length}','use lib.ListN.{length, replicate}'),('specs/Turned.antt','use mathlib.Core.List.{List, _∷_}','use mathlib.Core.List.{List, _∷_, _++_}'),('specs/Turned.antt','use Prim.Native.Nat.{ℕ}','use Prim.Native.Nat.{ℕ, _-_}')],
 turns('''    let w : Turned (turnedOf (ranges two)) (replicate 262 1) (Used 261) (fileOf 1 ones ++ (0 ∷ [])) = record { answer = refl; bytes = refl } in
    let e = t .enough (ranges two) (fileOf 1 ones) (replicate 262 1) (Used 261) (fileOf 1 ones ++ (0 ∷ [])) w refl (leb-true 261 262 refl) .1 in
    apart 0 1 (inl (omega arith)) (ap (λ (x : List ℕ). getD x 261 0) e)
'''))
three='line 0 0 0 ∷ line 1 254 1 ∷ line 255 255 1 ∷ []'
A['a08-equal-neighbours-refused']=([('specs/Ranges.antt','ascending from (line a z v ∷ ls) = lineAscends from a z && ascending (suc z) ls','ascending from (line a z v ∷ ls) = lineAscends from a z && (another v ls && ascending (suc z) ls)'),
  ('specs/Ranges.antt','-- All lines.','abbrev pub another : ℕ → List Line → Bool\nanother v [] = true\nanother v (line a z w ∷ ls) = cond (eqb v w) false true\n\n-- All lines.'),('specs/Ranges.antt','{Bool, true, cond, _&&_}','{Bool, true, false, cond, _&&_}')],
 loads(f'''    let e = l .only (ranges ({three})) (result ones) {by(14)} (taken ones gives ones-bounded refl) in
    apart 0 31 (inl (omega arith)) (ap numberIn e)
''',f'''covers-three : (i : ℕ) → i ≤ 255 → Covered i ({three})
covers-three i h = byCases (leb i 0) (λ e. inl (omega arith, leb-true i 0 e)) (λ e. inr (byCases (leb i 254) (λ k. inl (omega (arith, leb-false i 0 e), leb-true i 254 k)) (λ k. inr (inl (omega (arith, leb-false i 254 k), h)))))

value-three : (i : ℕ) → i ≤ 255 → ValueOver i ({three}) (getD ones i 0)
value-three zero h = inl (omega arith, omega arith, refl)
value-three (suc i) h = inr (byCases (leb (suc i) 254) (λ k. inl (omega arith, leb-true (suc i) 254 k, at-ones (suc i) (omega arith) h)) (λ k. inr (inl (omega (arith, leb-false (suc i) 254 k), h, at-ones (suc i) (omega arith) h))))

gives : Gives (ranges ({three})) ones
unfolding bytesOf
gives = byRanges ({three}) {REC} (omega arith, omega arith, (omega arith, omega arith, (omega arith, tt, tt))) covers-three refl value-three

'''))
A['a09-v2-turned-to-v2']=([('specs/Turned.antt','otherFile one (result t) = result (cond one (rangesFile t) (fileOf 1 t))','otherFile one (result t) = result (cond one (rangesFile t) (rangesFile t))')],
 turns(f'''    let x = t .to-entries (ranges two) (ranges two) two {REC} refl in
    apart 2 1 (inr (omega arith)) (ap (λ (x : List ℕ). getD x 3 0) (x .version1 .bytes))
'''))
A['a10-index-0-may-lack']=([('specs/File.antt',RT,'rangesTable ls = let ms = filled ls in cond (ascending 0 ms) (cond (covering 0 ms) (boundedTable (entriesOf ms)) (number 30)) (number 31)'),
  ('specs/File.antt','-- "31 a line whose first','abbrev pub filled : List Line → List Line\nfilled [] = []\nfilled (line a z v ∷ ls) = cond (eqb a 1) (line 0 0 0 ∷ line a z v ∷ ls) (line a z v ∷ ls)\n\n-- "31 a line whose first'),
  ('specs/File.antt','Ranges.{Line, linesIn','Ranges.{Line, line, linesIn')],
 uncovered('line 1 255 1 ∷ []',8,'(omega arith, tt, tt)',0,'bare (inl k) = omega (arith, k .0)\nbare (inr k) = k','0'))
A['a11-gap-at-end']=([('specs/Ranges.antt','covering from [] = eqb from 256','covering from [] = true')],
 uncovered('line 0 0 0 ∷ []',8,'(omega arith, tt, tt)',1,'bare (inl k) = omega (arith, k .1)\nbare (inr k) = k','0'))
A['a12-behind-255-ignored']=([('specs/File.antt',RT,'rangesTable ls = let ms = upTo255 ls in cond (ascending 0 ms) (cond (covering 0 ms) (boundedTable (entriesOf ms)) (number 30)) (number 31)'),
  ('specs/File.antt','-- "31 a line whose first','abbrev pub upTo255 : List Line → List Line\nupTo255 [] = []\nupTo255 (line a z v ∷ ls) = line a z v ∷ cond (eqb z 255) [] (upTo255 ls)\n\n-- "31 a line whose first'),
  ('specs/File.antt','Ranges.{Line, linesIn','Ranges.{Line, line, linesIn')],
 order('line 0 0 0 ∷ line 1 255 1 ∷ line 0 0 0 ∷ []',14,'λ u. omega (arith, u .2 .1)','0'))
A['a13-low-byte-alone']=([('specs/File.antt','eqb (getD f 3 0 + getD f 4 0 * 256) v)','eqb (getD f 3 0) v)')],
 loads(f'''    let f : List ℕ = 0x50 ∷ 0x49 ∷ 0x54 ∷ 2 ∷ 1 ∷ [] in
    let e = l .only (0x50 ∷ 0x49 ∷ 0x54 ∷ 2 ∷ 1 ∷ []) (number 28) {by(5)}
        (wrongFormat (λ t x. apart 2 1 (inr (omega arith)) (ap (λ (x : List ℕ). getD x 3 0) (x .bytes))) (λ ls x. apart 1 0 (inr (omega arith)) (ap (λ (x : List ℕ). getD x 4 0) (x .bytes))) refl) in
    apart 28 30 (inl (omega arith)) (ap numberIn e)
'''))
A['a14-v2-head-over-256-bytes']=([('specs/File.antt','tableIn f = cond (isVersion1 f)','tableIn f = cond (isVersion1 f || (headed 2 f && eqb (length f) 261))'),('specs/File.antt','{Bool, true, cond, _&&_}','{Bool, true, cond, _&&_, _||_}')],
 loads(f'''    let e = l .only (fileOf 2 ones) (number 28) (omega arith, (omega arith, (omega arith, (omega arith, (omega arith, (omega arith, bytes 255 1 (omega arith)))))))
        (wrongFormat (λ t x. apart 2 1 (inr (omega arith)) (ap (λ (x : List ℕ). getD x 3 0) (x .bytes))) (λ ls x. odd ls (ap length (x .bytes))) refl) in
    apart 28 0 (inr (omega arith)) (ap numberIn e)
''','''use Rattle·poll·proofs.proofs.Lines.{length-bytes}

bytes : (n x : ℕ) → x < 256 → Bytes (replicate n x)
bytes zero x h = tt
bytes (suc n) x h = (h, bytes n x h)

odd : (ls : List Line) → length (fileOf 2 ones) ≡ suc (suc (suc (suc (suc (length (bytesOf ls)))))) → ⊥
odd ls e =
    let n : 261 ≡ length (fileOf 2 ones) = refl in
    omega (arith, e, n, length-bytes ls .0)

'''.replace('use Rattle·poll·proofs.proofs.Lines.{length-bytes}\n\n','')))
A['a15-touching']=([('specs/Ranges.antt','ascending from (line a z v ∷ ls) = lineAscends from a z && ascending (suc z) ls','ascending from (line a z v ∷ ls) = lineAscends from a z && ascending z ls')],
 order('line 0 0 0 ∷ line 0 0 0 ∷ []',11,'λ u. omega (arith, u .1)','30'))
A['a16-last-for-value']=([('specs/Ranges.antt','replicate (suc z - a) v ++ entriesOf ls','replicate (suc z - a) z ++ entriesOf ls')],
 loads(f'''    let e = l .only (ranges two) (result ones) {by(11)} (taken ones two-gives ones-bounded refl) in
    apart 0 29 (inl (omega arith)) (ap numberIn e)
'''))
A['a17-load-keeps-old']=([('specs/Loaded.antt','  pub answer : loadReply (r .answer) (r .table) ≡ y','  pub answer : r .answer ≡ answerOf y'),('specs/Loaded.antt','tableAfter old (result t) = t','tableAfter old (result t) = old')],
 loads('''    let w : Took [] (tableIn (ranges two)) (record { table = []; answer = Taken }) = record { answer = refl; table = refl } in
    let e = l .replaced [] (ranges two) ones (record { table = []; answer = Taken }) w refl .1 in
    apart 0 256 (inl (omega arith)) (ap length e)
'''))
A['a18-refused-load-stores']=([('specs/Loaded.antt','tableAfter old (number n) = old','tableAfter old (number n) = []'),('specs/Loaded.antt','use mathlib.Core.List.{List}','use mathlib.Core.List.{List, []}')],
 loads('''    let w : Took (1 ∷ []) (tableIn []) (record { table = []; answer = LoadRefused Format }) = record { answer = refl; table = refl } in
    let e = l .left-alone (1 ∷ []) [] 28 (record { table = []; answer = LoadRefused Format }) w refl .1 in
    apart 0 1 (inl (omega arith)) (ap length e)
'''))
A['a19-no-line-is-28']=([('specs/File.antt','isVersion2 f = headed 2 f && eqb ((length f - 5) % 3) 0','isVersion2 f = headed 2 f && (leb 8 (length f) && eqb ((length f - 5) % 3) 0)')],
 uncovered('[]',5,'tt',0,'bare k = k','28'))
A['a20-line-at-every-index']=([('specs/Ranges.antt','linesFrom a v i (x ∷ t) = cond (eqb x v) (linesFrom a v (suc i) t) (line a (i - 1) v ∷ linesFrom i x (suc i) t)','linesFrom a v i (x ∷ t) = line a (i - 1) v ∷ linesFrom i x (suc i) t')],
 turns(f'''    let x = t .to-ranges (fileOf 1 ones) ones (rangesFile ones) (record {{ bytes = refl; entries = refl }}) refl in
    let few = x .fewest (ranges two) two {REC} refl in
    let n : 773 ≡ length (rangesFile ones) = refl in
    let m : length two ≡ 2 = refl in
    omega (arith, few, m, n, ap length (x .version2 .bytes), length-bytes (x .lines) .1)
'''))
A['a21-last-value-lost']=([('specs/Ranges.antt','linesFrom a v i [] = line a (i - 1) v ∷ []','linesFrom a v i [] = line a (i - 1) 0 ∷ []')],
 turns('''    let e = t .back (fileOf 1 ones) ones (rangesFile ones) (record { bytes = refl; entries = refl }) refl in
    apart 29 0 (inr (omega arith)) (ap numberIn e)
'''))
A['a22-turn-without-29']=([('specs/Turned.antt','turnedOf f = otherFile (isVersion1 f) (tableIn f)','turnedOf f = cond (isVersion1 f) (result (rangesFile (drop 5 f))) (otherFile false (tableIn f))'),('specs/Turned.antt','{Bool, cond}','{Bool, false, cond}'),('specs/Turned.antt','use lib.ListN.{length}','use lib.ListN.{length, drop}')],
 turns('''    let e = t .refuses-alike (fileOf 1 (replicate 256 1)) 29 refl in
    apart 0 29 (inl (omega arith)) (ap numberIn e)
'''))
A['a23-30-31-swapped']=([('specs/Reply.antt','numberOf Uncovered = 30','numberOf Uncovered = 31'),('specs/Reply.antt','numberOf Order = 31','numberOf Order = 30'),('src/refusal.rt','Refusal::Uncovered => 30','Refusal::Uncovered => 31'),('src/refusal.rt','Refusal::Order => 31','Refusal::Order => 30')],
 loads('''    apart 30 31 (inl (omega arith)) (l .order-meant [] .1)
'''))
A['a24-value-at-most-last']=([('specs/File.antt',RT,'rangesTable ls = cond (ascending 0 ls) (cond (covering 0 ls) (cond (linesGood ls) (result (entriesOf ls)) (number 29)) (number 30)) (number 31)'),
  ('specs/File.antt','-- "31 a line whose first','abbrev pub linesGood : List Line → Bool\nlinesGood [] = true\nlinesGood (line a z v ∷ ls) = entryGood z v && linesGood ls\n\n-- "31 a line whose first'),
  ('specs/File.antt','Ranges.{Line, linesIn','Ranges.{Line, line, linesIn')],
 loads(f'''    let e = l .only (ranges twos) (number 29) {by(11)} (outOfBounds (0 ∷ replicate 255 2) gives (λ b. omega (arith, b .others 1 (omega arith) (omega arith) .1)) refl) in
    apart 29 0 (inr (omega arith)) (ap numberIn e)
''','''use-later
abbrev twos : List Line
twos = line 0 0 0 ∷ line 1 255 2 ∷ []

value-twos : (i : ℕ) → i ≤ 255 → ValueOver i twos (getD (0 ∷ replicate 255 2) i 0)
value-twos zero h = inl (omega arith, omega arith, refl)
value-twos (suc i) h = inr (inl (omega arith, h, getD-replicate 255 i 2 0 (omega arith)))

covers-twos : (i : ℕ) → i ≤ 255 → Covered i twos
covers-twos i h = byCases (leb i 0) (λ e. inl (omega arith, leb-true i 0 e)) (λ e. inr (inl (omega (arith, leb-false i 0 e), h)))

gives : Gives (ranges twos) (0 ∷ replicate 255 2)
unfolding bytesOf
gives = byRanges twos (record { bytes = refl }) (omega arith, omega arith, (omega arith, tt, tt)) covers-twos refl value-twos

'''.replace('use-later\n','')))
A['a25-count-without-head']=([('specs/Turned.antt','(result (length g)) (number 21)','(result (length g - 5)) (number 21)'),('specs/Turned.antt','use Prim.Native.Nat.{ℕ}','use Prim.Native.Nat.{ℕ, _-_}'),('src/turn.rt','TurnAnswer::Used(n)','TurnAnswer::Used(n - 5)')],
 turns('''    let w : Turned (turnedOf (ranges two)) (replicate 261 1) (Used 256) (fileOf 1 ones) = record { answer = refl; bytes = refl } in
    let e = t .enough (ranges two) (fileOf 1 ones) (replicate 261 1) (Used 256) (fileOf 1 ones) w refl (leb-true 261 261 refl) .0 in
    apart 256 261 (inl (omega arith)) (ap resultIn e)
''','''abbrev resultIn : Reply ℕ → ℕ
resultIn (result n) = n
resultIn (number n) = 0

'''))
A['a26-falling-line']=([('specs/Ranges.antt','lineAscends from a z = leb a z && leb from a','lineAscends from a z = leb from a'),('src/ranges.rt','both(first <= last, from <= first)','from <= first')],
 order('line 1 0 0 ∷ []',8,'λ u. omega (arith, u .0)','30'))
A['a27-overlap-overrides']=([('specs/Ranges.antt','ascending from (line a z v ∷ ls) = lineAscends from a z && ascending (suc z) ls','ascending from (line a z v ∷ ls) = lineAscends from a z && ascending (suc a) ls')],
 order('line 0 1 0 ∷ line 1 1 0 ∷ []',11,'λ u. omega (arith, u .1)','30'))
A['a28-version-high-first']=([('specs/Turned.antt','fileOf v bytes = 0x50 ∷ 0x49 ∷ 0x54 ∷ v ∷ 0 ∷ bytes','fileOf v bytes = 0x50 ∷ 0x49 ∷ 0x54 ∷ 0 ∷ v ∷ bytes'),('src/turn.rt','    out[3] = version;\n    out[4] = 0;','    out[3] = 0;\n    out[4] = version;')],
 turns(f'''    let x = t .to-entries (ranges two) (fileOf 1 ones) two {REC} refl in
    apart 0 1 (inl (omega arith)) (ap (λ (x : List ℕ). getD x 3 0) (x .version1 .bytes))
'''))
A['a29-over-256-lines-is-28']=([('specs/File.antt','isVersion2 f = headed 2 f && eqb ((length f - 5) % 3) 0','isVersion2 f = headed 2 f && (leb (length f) 773 && eqb ((length f - 5) % 3) 0)')],
 loads(f'''    let e = l .only (ranges (replicate 257 (line 0 0 0))) (number 31) (omega arith, (omega arith, (omega arith, (omega arith, (omega arith, zeros 257)))))
        (wrongOrder (replicate 257 (line 0 0 0)) {REC} (λ u. omega (arith, u .1)) refl) in
    apart 31 28 (inr (omega arith)) (ap numberIn e)
''','''zeros : (n : ℕ) → Bytes (bytesOf (replicate n (line 0 0 0)))
unfolding bytesOf
zeros zero = tt
zeros (suc n) = (omega arith, (omega arith, (omega arith, zeros n)))

'''))
names=sys.argv[1:] or sorted(A)
for n in names:
    for k in A:
        if k.startswith(n): run(k,*A[k])
