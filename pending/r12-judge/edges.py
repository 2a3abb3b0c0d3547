import subprocess, sys
import os; sys.path.insert(0, os.path.dirname(os.path.abspath(__file__))); sys.argv=['x','none']
import judge
B=os.environ['PLAY']  # the built program
cases={
 'packets 4096':'\n'.join(['box in 1 01']*4097+['bulk-in 5 1 1 fixed - 3','record']),
 'marks 65536':'cable '+'.'*65535+'\ncable ..\ncable x\ncable x\nbulk-out 5 1 64 fixed - 01\n',
 'line 300000':'bulk-out 5 1 64 fixed - '+'0'*299976+'\nbulk-out 5 1 64 fixed - '+'0'*299977+'\n#'+'x'*400000+'\nrecord\n',
 'bytes 131072':'bulk-out 5 1 64 fixed - '+'ab'*131072+'\nbulk-out 5 1 64 fixed - '+'ab'*131073+'\ncontrol-out 5 0 64 0000000000000100 '+'ab'*131072+'\n',
 'record full':'\n'.join(['bulk-out 5 1 64 fixed - seq:65535:0:1']*2+['record','bulk-out 5 1 64 fixed - 01','record']),
 'in 65535':'\n'.join(['box in 1 seq:64:%d:3'%(i%256) for i in range(1024)]+['bulk-in 5 1 64 fixed - 65535','bulk-in 5 1 64 fixed - 65536','record']),
 'control len':'box in 0 0102\ncontrol-in 5 0 64 8006000100000200 131072\ncontrol-in 5 1 8 8006000100001200 131073\n',
 'naks':'patience 1000\nbulk-in 5 1 64 fixed - 1\ncable '+'.x'*2+'..'*3+'\npatience 2\nbulk-in 5 1 64 fixed - 1\n',
 'empty':'', 'no lf':'record', 'crlf':'record\r\n',
 'toggles':'\n'.join('bulk-out 5 %d 1 %s - seq:%d:0:1'%(e,k,n) for e in (1,2,15) for k in ('fixed','variable') for n in range(6)),
}
bad=0
for k,v in cases.items():
    l=v.encode(); w=judge.Machine().play(l); g=subprocess.run([B],input=l,capture_output=True).stdout
    print(k,'equal' if w==g else 'DIFFERENT',len(w))
    if w!=g: bad=1; open('edge.want','wb').write(w); open('edge.got','wb').write(g)
