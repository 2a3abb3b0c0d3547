import os
import run as R, shutil,subprocess,re
def go(src,text):
    d=os.environ['SCRATCH']; shutil.rmtree(d,ignore_errors=True); subprocess.check_call(['cp','-r',src,d])
    open(d+'/crates.txt','w').write('pool:\npoll: pool\n')
    for f in ('Loads','Turns'): shutil.copy(os.environ['FIXED']+'/crates/poll/specs/%s.antt'%f,d+'/crates/poll/specs/')
    h=R.HEAD.replace("{Used, Refused}","{Used, Refused, Full}") if "Full" in text else R.HEAD
    open(d+"/crates/poll/proofs/Refuted.antt","w").write(h+text); open(d+"/crates/poll/proofs/Lib.antt","a").write("pub mod Refuted\n")
    r=subprocess.run('RT_JOBS=1 RT_CUT=0 nice -n 10 rt dev poll',shell=True,cwd=d,stdout=subprocess.PIPE,stderr=subprocess.STDOUT,text=True)
    print(src,'| Refuted errors:',[x[:300] for x in r.stdout.splitlines() if 'Refuted.antt' in x],'| functions not proved:',re.findall(r'^fn poll::(\S+): (?!proved)',r.stdout,re.M), r.stdout.strip().splitlines()[-1][:60])
go(os.environ['ATTACKS']+'/h1','''abbrev told : LoadAnswer → ℕ
told Taken = 0
told (LoadRefused why) = numberOf why

pub refuted : Loads → ⊥
'''+R.ALL+'''
refuted l =
    let w : Took [] (tableIn []) (record { table = []; answer = LoadRefused Room }) = record { answer = refl; table = refl } in
    apart 21 28 (inl (omega arith)) (ap told (l .left-alone [] [] Format (record { table = []; answer = LoadRefused Room }) w refl .0))
''')
go(os.environ['ATTACKS']+'/h2','''use-here
abbrev told : TurnAnswer → ℕ
told (Used k) = 0
told (Refused why) = numberOf why
told Full = 1

pub refuted : Turns → ⊥
'''.replace('use-here\n','')+R.ALL+'''
refuted t =
    let w : Turned (turnedOf (ranges two)) [] Full [] = record { answer = refl; bytes = refl } in
    apart 1 21 (inl (omega arith)) (ap told (t .too-few (ranges two) (fileOf 1 ones) [] Full [] w refl (omega arith) .0))
''' )
