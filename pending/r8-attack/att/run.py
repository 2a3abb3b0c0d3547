import sys,os,subprocess,shutil,re
HEAD='''-- Refuted.
use mathlib.Core.Path.{_≡_, refl, ap, sym, _∙_}
use mathlib.Core.Bool.{Bool, true, false, cond, _&&_, true≢false}
use mathlib.Core.Logic.{_⊎_, inl, inr}
use mathlib.Core.List.{List, [], _∷_, _++_}
use Prim.Native.Nat.{ℕ, zero, suc, _+_, _-_, _*_, _%_, _≤_, _<_}
use native.Mathlib.Omega.{arith}
use lib.Dec.{eqb, leb}
use lib.ListN.{length, drop, take, set, getD, replicate, getD-replicate}
use lib.Seq.{sets}
use borrow.Author.Tests.{leb-true, leb-false}
use Rattle·pool.proofs.Cases.{byCases}
use Rattle·poll·specs.specs.declared.refusal.Refusal.{Refusal}
use Rattle·poll·specs.specs.declared.refusal.Refusal.the-variants.{Format, Bounds, Uncovered, Order, Room}
use Rattle·poll·specs.specs.declared.table.LoadAnswer.{LoadAnswer}
use Rattle·poll·specs.specs.declared.table.LoadAnswer.the-variants.{Taken, Refused as LoadRefused}
use Rattle·poll·specs.specs.declared.table.Loaded.{Loaded}
use Rattle·poll·specs.specs.declared.turn.TurnAnswer.{TurnAnswer}
use Rattle·poll·specs.specs.declared.turn.TurnAnswer.the-variants.{Used, Refused}
use Rattle·poll·specs.specs.Table.{capped, builtIn}
use Rattle·poll·specs.specs.Reply.{Reply, result, number, numberOf}
use Rattle·poll·specs.specs.Ranges.{Line, line, bytesOf, linesIn, ascending, covering, entriesOf, linesFrom, linesOf}
use Rattle·poll·specs.specs.Lines.{Above, Ascending, Covered, ValueOver}
use Rattle·poll·specs.specs.File.{isMark, headed, isVersion1, isVersion2, entryGood, allGood, boundedTable, rangesTable, tableIn}
use Rattle·poll·specs.specs.Loaded.{loadReply, tableAfter, Took}
use Rattle·poll·specs.specs.Loads.{Version1, Version2, Gives, byEntries, byRanges, Bounded, Deserves, wrongFormat, wrongOrder, leftUncovered, outOfBounds, taken, Bytes, Loads}
use Rattle·poll·specs.specs.Turned.{fileOf, rangesFile, turnedOf, turnReply, turnRow, turnedIn, Turned}
use Rattle·poll·proofs.proofs.Lines.{length-bytes}
use Rattle·poll·specs.specs.Turns.{FewestLines, EntriesOver, TurnedInto, Turns}

abbrev numberIn : {A : Type 0} → Reply A → ℕ
numberIn (result t) = 0
numberIn (number n) = n

apart : (m n : ℕ) → (m < n) ⊎ (n < m) → m ≡ n → ⊥
apart m n (inl h) e = omega (arith, h, e)
apart m n (inr h) e = omega (arith, h, e)

-- Version 2 with these lines.
abbrev ranges : List Line → List ℕ
ranges ls = 0x50 ∷ 0x49 ∷ 0x54 ∷ 2 ∷ 0 ∷ bytesOf ls

-- Two lines that every table has at least.
abbrev two : List Line
two = line 0 0 0 ∷ line 1 255 1 ∷ []

abbrev ones : List ℕ
ones = 0 ∷ replicate 255 1

covers-two : (ls : List Line) (i : ℕ) → i ≤ 255 → Covered i (line 0 0 0 ∷ line 1 255 1 ∷ ls)
covers-two ls i h = byCases (leb i 0) (λ e. inl (omega arith, leb-true i 0 e)) (λ e. inr (inl (omega (arith, leb-false i 0 e), h)))

at-ones : (i : ℕ) → 1 ≤ i → i ≤ 255 → getD ones i 0 ≡ 1
at-ones zero l h = absurd (omega arith)
at-ones (suc i) l h = getD-replicate 255 i 1 0 (omega arith)

value-two : (i : ℕ) → i ≤ 255 → ValueOver i two (getD ones i 0)
value-two zero h = inl (omega arith, omega arith, refl)
value-two (suc i) h = inr (inl (omega arith, h, at-ones (suc i) (omega arith) h))

ones-bounded : Bounded ones
ones-bounded = record { zeroth = refl; others = λ i l h. (let e = at-ones i l h in omega (arith, e), let e = at-ones i l h in omega (arith, e, l)) }

two-gives : Gives (ranges two) ones
unfolding bytesOf
two-gives = byRanges two (record { bytes = refl }) (omega arith, omega arith, (omega arith, tt, tt)) (λ i h. covers-two [] i h) refl value-two

'''
ALL='unfolding capped headed allGood boundedTable bytesOf linesIn ascending covering entriesOf linesFrom linesOf rangesTable tableIn turnedOf'
def by(n): return 'tt' if n==0 else '(omega arith, '+by(n-1)+')'
def run(name,subs,refuted,extra=None,keep=False):
    d=os.environ['ATTACKS']+'/'+name
    shutil.rmtree(d,ignore_errors=True)
    subprocess.check_call(['cp','-r',os.environ['BASE'],d])
    c=d+'/crates/poll/'
    for f,a,b in subs:
        s=open(c+f).read()
        assert s.count(a)==1,(name,f,a,s.count(a))
        open(c+f,'w').write(s.replace(a,b))
    if refuted is not None:
        open(c+'proofs/Refuted.antt','w').write(HEAD+refuted)
        open(c+'proofs/Lib.antt','a').write('pub mod Refuted\n')
    if extra: extra(c)
    r=subprocess.run('RT_JOBS=1 RT_CUT=0 nice -n 10 rt dev poll',shell=True,cwd=d,stdout=subprocess.PIPE,stderr=subprocess.STDOUT,text=True)
    open(os.environ['ATTACKS']+'/'+name+'.out','w').write(r.stdout)
    print('=====',name)
    errs={}
    for m in re.finditer(r'^\S*/crates/poll/(\S+?):(\d+):(\d+): error: `([^`]*)`',r.stdout,re.M):
        errs.setdefault(m.group(1),[]).append(m.group(4))
    for k,v in errs.items(): print('   err',k,v[:6])
    print('   not proved:',re.findall(r'^fn poll::(\S+): (?!proved)(.{0,80})',r.stdout,re.M))
    print('   ',r.stdout.strip().splitlines()[-1][:150])
    print('   Refuted:', 'none' if refuted is None else ('REJECTED' if 'proofs/Refuted.antt' in errs or 'Refuted.antt' in r.stdout and 'error' in [x for x in r.stdout.splitlines() if 'Refuted.antt' in x][0] else 'accepted'))
    sys.stdout.flush()
