#!/usr/bin/env python3
"""An independent machine for `play`, written from play-format.md and from model.py's driver, record version 2.

    judge.py play < LIST > OUTPUT
    judge.py compare BIN COUNT SEED      COUNT random lists, each output compared byte for byte
"""
import os, random, re, subprocess, sys
sys.path.insert(0, os.environ['R12_MODEL'])  # the folder of model.py
import model
from model import W, D, EPBC, EPXC, AE, SC, SS, BS, NP, IE, ONES, SLOT, head, enable, go, arm_two, retire, first_error, zlp0, ACK as POLLED, QUIET, FIN
model.READY, model.PENDING = 0x7F8, 0x7E8
READY, PENDING = 0x7F8, 0x7E8
SLO, SHI = 0x50100000, 0x50100004

# ---- the driver: bulk and control, as document 01 has it

class Driver:
    def __init__(self): self.t = None
    def begin_bulk(self, inward, a, e, p, variable, toggle, buf, pm):
        if a > 127: return 12, []
        if not 1 <= e <= 15: return 11, []
        if not 1 <= p <= 64: return 13, []
        if len(buf) > 65535: return 14, []
        self.t, ws = model.begin(inward, a, e, p, variable, toggle, buf, pm)
        self.t['kind'], self.t['stage'] = 'bulk', 'data'
        return 0, ws
    def begin_control(self, a, preamble, p, setup, phase, n, pm):
        if a > 127: return 12, []
        if not 1 <= p <= 64: return 13, []
        lo, hi = int.from_bytes(bytes(setup[:4]), 'little'), int.from_bytes(bytes(setup[4:]), 'little')
        self.t = {'kind': 'control', 'phase': phase, 'a': a, 'e': 0, 'p': p, 'n': n, 'w': setup[6] + 256 * setup[7], 'stage': 'setup', 'toggle': 1}
        self.setup = (a, bytes(setup))
        pre = 0x40 if preamble else 0
        return 0, [W(SLO, lo), W(SHI, hi), W(SS, ONES), W(AE, a), (SC, 0x4E, 2 + pre), D, (SC, 1, 1)]
    def enter(self, inward, n, status, buf, pm):
        t = self.t
        t.update({'in': inward, 'slot': 0, 'ret': 0, 'fly': 0, 'off': 0, 'rest': n, 'toarm': n, 'zlp': zlp0(False, t['p'], n), 'toggle': 1, 'stage': 'status' if status else 'data', 'len': n})
        return head({'a': t['a'], 'e': 0, 'p': t['p']}, n) + self.arm(0, buf, pm) + enable(t['p'], n) + go(inward)
    def arm(self, bc, buf, pm):
        return arm_two(self.t, bc, buf, pm)
    def step(self, sample, buf, pm):
        """answer, toggle, writes"""
        t = self.t
        status, intr, bc = sample
        if intr & READY == 0: return 'wait0', None, POLLED + [(IE, PENDING, PENDING)]
        if t['stage'] == 'setup':
            if status >> 18 & 1:
                if t['phase'] in ('in', 'out') and t['n'] < t['w']: return self.end(('refused', 7)), 0, POLLED
                if t['phase'] == 'in': return 'wait1', None, POLLED + self.enter(True, t['w'], False, buf, pm)
                if t['phase'] == 'out': return 'wait1', None, POLLED + self.enter(False, t['w'], False, buf, pm)
                return 'wait1', None, POLLED + self.enter(True, 0, True, [], pm)
            e = first_error(status)
            if e: return self.end(('refused', e)), 0, POLLED
            return 'wait1', None, POLLED
        own = buf if t['stage'] == 'data' else []
        t2 = dict(t, n=t['len']) if t['kind'] == 'control' else t
        if t['kind'] == 'bulk':
            a, tg, ws = model.step(t, sample, buf, pm)
            if a not in ('wait0', 'wait1'): self.end(a)
            return a, tg, ws
        L = POLLED + QUIET
        if status >> 18 & 1:
            for k in range(2):
                if not retire(t, bc, own, pm): return self.end(('refused', 9)), 0, L + (FIN if k else [])
            L = L + FIN
            if t['stage'] == 'status': return self.end(('done', {'in': t.get('received'), 'out': t['n'], 'none': 0}[t['phase']])), 0, L
            if t['phase'] == 'in':
                t['received'] = t['off']
                return 'wait1', None, L + self.enter(False, 0, True, [], pm)
            return 'wait1', None, L + self.enter(True, 0, True, [], pm)
        e = first_error(status)
        if e: return self.end(('refused', e)), 0, L
        for k in range(2):
            if not retire(t, bc, own, pm): return self.end(('refused', 9)), 0, L
        return 'wait1', None, L + self.arm(bc, own, pm) + enable(t['p'], t['len'])
    def end(self, a): self.t = None; return a
    def cancel(self): tg = self.t['toggle']; self.t = None; return tg

# ---- the record's listing, from what was armed, by the page's words (version 2)

class Record:
    def __init__(self): self.size, self.items, self.cur, self.full = 5, [], None, False
    def entry(self, size):
        if self.full: return False
        if self.size + size > 131072: self.full = True; return False
        self.size += size; return True
    def begin(self, kind): self.cur = kind
    def setup(self, a, bs):
        self.entry(10); self.cur = ['control', a, bs, 0]
    def out(self, a, e, pid, n):
        self.entry(6 + n)
        if self.cur is None: self.cur = ['bulk', a, e, pid, 0]
        self.cur[-1] += n
    def done(self):
        if self.cur is not None: self.items.append(self.cur)
        self.cur = None
    def failed(self): self.entry(5); self.cur = None
    def listing(self):
        if self.full: return ['refused 21: the record is full']
        ls = ['WLG 2']
        for x in self.items:
            if x[0] == 'control': ls.append('control %d %s %d' % (x[1], x[2].hex(), x[3]))
            else: ls.append('bulk %d %d %d %d' % tuple(x[1:]))
        return ls + ['end %d' % len(self.items)]

# ---- controller, cable and box, from the page

WORDS = {2: 'the box did not answer three times in a row', 7: 'the buffer is shorter than wLength', 12: 'the address is above 127', 11: 'the endpoint is not 1 to 15',
         13: 'the packet size is not 1 to 64', 14: 'the buffer is above 65535 bytes'}
def hx(b): return bytes(b).hex() or '-'

class Machine:
    def __init__(self):
        self.d, self.rec = Driver(), Record()
        self.script, self.marks, self.count = [], 0, 0
        self.expects, self.next, self.queue = [0] * 16, [0] * 16, [[] for _ in range(16)]
        self.asks, self.pending = False, False
        self.desk = {(e, x): 0 for e in range(256) for x in ('in', 'out')}
        self.patience, self.out, self.pm = 5, [], [0] * 4096
    def line(self, s): self.out.append(s)
    def send(self, text):
        ok = self.script.pop(0) if self.script else True
        self.line(text + ('' if ok else ' lost')); return ok
    # the controller
    def perform(self, ws):
        for r, m, v in ws:
            if r == EPBC: self.bc = self.bc & (ONES - m) | v
            elif r == SS: self.status &= ONES - v
            elif r == BS: self.buffs &= ONES - v
            elif r == IE: self.inte = self.inte & (ONES - m) | v
            elif r == AE: self.target = v
            elif r == SLO: self.lo = v
            elif r == SHI: self.hi = v
            elif r == SC:
                self.ctrl = self.ctrl & (ONES - m) | v
                if m & v & 1: self.running, self.slot, self.tries = True, 0, 0
    def intr(self): return (self.status >> 18 & 1) << 3 | (self.status >> 27 & 1) << 6 | (0x10 if self.buffs else 0)
    def missed(self):
        self.tries += 1
        if self.tries == 3: self.status |= 1 << 27; self.running = False
    def acked0(self):
        """endpoint 0's last packet has its ACK"""
        self.pending = False; self.next[0] ^= 1
        if self.asks: self.sent += len(self.queue[0].pop(0))
    def tick(self):
        assert self.running, 'no transaction'
        a, e = self.target & 127, self.target >> 16 & 15
        if self.ctrl & 2:
            bs = self.lo.to_bytes(4, 'little') + self.hi.to_bytes(4, 'little')
            x, y = self.send('> SETUP %d %d' % (a, e)), self.send('> DATA0 ' + hx(bs))
            if not (x and y): return self.missed()
            self.expects[0] = self.next[0] = 1; self.asks = bool(bs[0] & 0x80) and bs[6:] != b'\0\0'; self.pending = False
            if not self.send('< ACK'): return self.missed()
            self.status |= 1 << 18; self.running = False; self.tries = 0
            return
        s = self.slot; h = self.bc >> 16 * s & 0xFFFF
        assert h >> 10 & 1, 'not available'
        pid, last, n = h >> 13 & 1, h >> 14 & 1, h & 0x3FF
        if self.ctrl & 4:
            bs = self.pm[SLOT[s]:SLOT[s] + n]
            x = self.send('> OUT %d %d' % (a, e))
            if x and e == 0 and self.pending: self.acked0()
            y = self.send('> DATA%d %s' % (pid, hx(bs)))
            if not (x and y): return self.missed()
            if pid == self.expects[e]: self.took += bs; self.expects[e] ^= 1
            if not self.send('< ACK'): return self.missed()
            self.bc &= ONES - (0x8400 << 16 * s); self.finish(last)
            return
        if not self.send('> IN %d %d' % (a, e)): return self.missed()
        status = e == 0 and not self.asks
        if not status and not self.queue[e]:
            if not self.send('< NAK'): return self.missed()
            self.tries = 0; self.naks += 1
            return
        bs = [] if status else self.queue[e][0]
        if e == 0: self.pending = True
        if not self.send('< DATA%d %s' % (self.next[e], hx(bs))): return self.missed()
        match = self.next[e] == pid
        if self.send('> ACK'):
            if e == 0: self.acked0()
            else: self.next[e] ^= 1; self.sent += len(self.queue[e].pop(0))
        if match:
            self.pm[SLOT[s]:SLOT[s] + len(bs)] = bs
            self.bc = self.bc & (ONES - (0x87FF << 16 * s)) | (0x8000 + len(bs)) << 16 * s
            self.finish(last or len(bs) < n)
        else: self.tries = 0
    def finish(self, ends):
        self.tries = 0; self.buffs |= 1; self.slot ^= 1
        if ends: self.status |= 1 << 18; self.running = False
    # what a log arms, for the record
    def armed(self, ws):
        """called before the log is performed: entries in the log's order"""
        bc, ctrl, target = self.bc, self.ctrl, self.target
        es = []
        for r, m, v in ws:
            if r == EPBC:
                bc = bc & (ONES - m) | v
                for s in (0, 1):
                    if m >> (16 * s + 10) & v >> (16 * s + 10) & 1 and bc >> (16 * s + 15) & 1: es.append((bc >> (16 * s + 13) & 1, bc >> 16 * s & 0x3FF))
            elif r == AE: target = v
            elif r == SC:
                ctrl = ctrl & (ONES - m) | v
                if m & v & 1 and ctrl & 2: es.append('setup')
        for x in es:
            if x == 'setup': self.rec.setup(*self.d.setup)
            else: self.rec.out(target & 127, target >> 16 & 15, *x)
    def call(self, ws): self.armed(ws); self.perform(ws)
    # a transfer
    def transfer(self, kind, e, buf, begin, toggle):
        self.bc = self.status = self.buffs = self.inte = self.ctrl = 0; self.running = False; self.slot = self.tries = 0; self.target = 0
        self.took, self.sent, self.naks = [], 0, 0
        no, ws = begin()
        if no: self.line('answer refused %d: %s' % (no, WORDS[no])); self.line('.'); return
        self.call(ws)
        shown = None
        while True:
            a, tg, ws = self.d.step((self.status, self.intr(), self.bc), buf, self.pm)
            self.call(ws)
            if a == 'wait1': continue
            if a != 'wait0': break
            woken = False
            while not woken:
                while not self.intr() & self.inte:
                    was = self.naks; self.tick()
                    if self.naks > was and self.naks >= self.patience: a = 'cancel'; break
                if a == 'cancel': break
                ints = self.intr() & self.inte
                if ints & 0x10: self.buffs &= 3
                self.inte &= ONES - ints
                woken = bool(ints & 0x7F8) or bool(ints & 0x10 and self.buffs & 3)
            if a == 'cancel': break
        bulk = kind.startswith('bulk')
        if a == 'cancel':
            self.d.cancel(); self.rec.failed(); self.line('answer cancelled: the box had nothing to send'); shown = len(buf); tg = toggle
        elif a[0] == 'done':
            self.rec.done(); self.line('answer done %d %s' % (a[1], tg if bulk else '-')); shown = a[1]
        else:
            self.rec.failed(); self.line('answer refused %d: %s' % (a[1], WORDS[a[1]])); shown = len(buf); tg = toggle
        if bulk: self.desk[e, kind[5:]] = tg
        if kind in ('bulk-in', 'control-in'): self.line('buf ' + hx(buf[:shown]))
        if kind != 'bulk-in': self.line('box out %d got %d %s next %d' % (e, len(self.took), hx(self.took), self.expects[e]))
        if kind != 'bulk-out': self.line('box in %d sent %d left %d next %d' % (e, self.sent, len(self.queue[e]), self.next[e]))
        self.line('.')
    # the list
    def play(self, data):
        lines = data.split(b'\n')
        if lines and lines[-1] == b'': lines.pop()
        for n, l in enumerate(lines, 1):
            if l == b'' or l.startswith(b'#'): continue
            try: self.do(l)
            except Unread as u: self.line('line %d: expected %s' % (n, u)); self.line('.')
        return ('\n'.join(self.out) + '\n').encode() if self.out else b''
    def ok(self): self.line('ok'); self.line('.')
    def do(self, l):
        if len(l) > 300000: raise Unread('at most 300000 bytes')
        f = l.split(b' ')
        w = f[0]
        if w not in (b'cable', b'box', b'bulk-out', b'bulk-in', b'control-out', b'control-in', b'control-none', b'patience', b'record'):
            raise Unread('cable, box, bulk-out, bulk-in, control-out, control-in, control-none, patience or record')
        g = Fields(f)
        if w == b'cable':
            m = g.text(r'[.x]+', 'MARKS, . or x each'); g.end()
            if self.marks + len(m) > 65536: raise Unread('at most 65536 marks in one list')
            self.marks += len(m); self.script += [c == ord('.') for c in m]; self.ok()
        elif w == b'box':
            g.text('in', 'in'); e = g.number(15, 'ENDPOINT, 0 to 15'); bs = g.bytes(64, 'BYTES, at most 64 hexadecimal pairs'); g.end()
            if self.count >= 4096: raise Unread('at most 4096 packets in one list')
            self.count += 1; self.queue[e].append(bs); self.ok()
        elif w == b'patience':
            n = g.number(1000, 'N, 1 to 1000')
            if n == 0: raise Unread('N, 1 to 1000')
            g.end(); self.patience = n; self.ok()
        elif w == b'record':
            g.end()
            for x in self.rec.listing(): self.line(x)
            self.line('.')
        elif w.startswith(b'bulk'):
            inward = w == b'bulk-in'; k = w.decode()
            a, e, p = g.number(255, 'ADDRESS, 0 to 255'), g.number(255, 'ENDPOINT, 0 to 255'), g.number(65535, 'SIZE, 0 to 65535')
            v = g.text('fixed|variable', 'fixed or variable') == b'variable'
            t = g.toggle()
            buf = [0] * g.number(131072, 'LEN, 0 to 131072') if inward else g.bytes(131072, 'BYTES, at most 131072 hexadecimal pairs')
            g.end()
            if t is None: t = self.desk[e, k[5:]]
            self.transfer(k, e, buf, lambda: self.d.begin_bulk(inward, a, e, p, v, t, buf, self.pm), t)
        else:
            k = w.decode(); phase = k[8:]
            a, pre, p = g.number(255, 'ADDRESS, 0 to 255'), g.number(1, 'PREAMBLE, 0 or 1'), g.number(255, 'SIZE, 0 to 255')
            s = list(bytes.fromhex(g.text('[0-9a-fA-F]{16}', 'SETUP, 16 hexadecimal digits').decode()))
            buf = [0] * g.number(131072, 'LEN, 0 to 131072') if phase == 'in' else g.bytes(131072, 'BYTES, at most 131072 hexadecimal pairs') if phase == 'out' else []
            g.end()
            self.transfer(k, 0, buf, lambda: self.d.begin_control(a, pre, p, s, phase, len(buf), self.pm), 0)

class Unread(Exception): pass
class Fields:
    def __init__(self, f): self.f = f[1:]
    def next(self, what):
        if not self.f: raise Unread(what)
        return self.f.pop(0)
    def text(self, pat, what):
        x = self.next(what)
        if not re.fullmatch(('(?:%s)' % pat).encode(), x): raise Unread(what)
        return x
    def num(self, x, most):
        if re.fullmatch(rb'[0-9]+', x): v = int(x)
        elif re.fullmatch(rb'0x[0-9a-fA-F]+', x): v = int(x[2:], 16)
        else: return None
        return v if v <= most else None
    def number(self, most, what):
        v = self.num(self.next(what), most)
        if v is None: raise Unread(what)
        return v
    def toggle(self):
        x = self.next('TOGGLE, 0, 1 or -')
        if x == b'-': return None
        v = self.num(x, 1)
        if v is None: raise Unread('TOGGLE, 0, 1 or -')
        return v
    def bytes(self, most, what):
        x = self.next(what)
        if x == b'-': return []
        p = x.split(b':')
        if len(p) == 4 and p[0] == b'seq':
            n, a, b = self.num(p[1], 131072), self.num(p[2], 255), self.num(p[3], 255)
            if None in (n, a, b) or n > most: raise Unread(what)
            return [(a + b * i + i // 256) % 256 for i in range(n)]
        if not re.fullmatch(rb'(?:[0-9a-fA-F]{2})+', x) or len(x) // 2 > most: raise Unread(what)
        return list(bytes.fromhex(x.decode()))
    def end(self):
        if self.f: raise Unread('the end of the line')

# ---- random lists

def cut(n, p, v): return model.cut(n, p, v)
def rnd_list(rng):
    ls = []
    lossy = rng.choice((0, .05, .15, .35, .6))
    def marks(k): return ''.join('x' if rng.random() < lossy else '.' for _ in range(k))
    def num(n): return rng.choice((str(n), str(n), hex(n), '0' * rng.randrange(3) + str(n), '0x' + '%X' % n))
    def hexs(n): return bytes(rng.randrange(256) for _ in range(n)).hex() or '-'
    def data(n): return rng.choice((hexs(n), hexs(n).upper() if n else '-', 'seq:%d:%d:%d' % (n, rng.randrange(256), rng.randrange(256))))
    for _ in range(rng.randrange(2, 9)):
        r = rng.random()
        p = rng.choice((1, 2, 3, 8, 16, 63, 64, 64))
        e = rng.choice((1, 1, 2, 2, 3, 15))
        t = rng.choice(('-', '-', '-', '0', '1'))
        k = rng.choice(('fixed', 'variable'))
        n = rng.choice((0, 1, p - 1, p, p + 1, 2 * p, 2 * p + 1, 3 * p, rng.randrange(0, 6 * p + 2)))
        a = rng.choice((0, 5, 5, 127))
        if rng.random() < .6: ls.append('cable ' + (marks(rng.randrange(1, 40)) or '.'))
        if r < .3: ls.append('bulk-out %s %s %s %s %s %s' % (num(a), num(e), num(p), k, t, data(n)))
        elif r < .6:
            c = cut(n, p, k == 'variable')
            if rng.random() < .7: ps = c
            else: ps = [rng.choice((p, p, rng.randrange(65))) for _ in range(rng.randrange(6))]
            for x in ps: ls.append('box in %s %s' % (num(e), data(x)))
            ls.append('bulk-in %s %s %s %s %s %s' % (num(a), num(e), num(p), k, t, num(n)))
        elif r < .7:
            w = rng.choice((n, n, rng.randrange(0, 70)))
            s = bytes((rng.choice((0x80, 0x80, 0xA1, 0, 0x81)), rng.randrange(256), 0, 0, 0, 0, w % 256, w // 256)).hex()
            rest = w
            ps = []
            while rest > 0 and rng.random() < .97: x = min(p, rest); ps.append(x); rest -= x
            if rng.random() < .2: ps.append(0)
            for x in ps: ls.append('box in 0 ' + data(x))
            ls.append('control-in %s %d %s %s %s' % (num(a), rng.randrange(2), num(p), s, num(rng.choice((w, w, w, max(0, w - 1), w + 3)))))
        elif r < .8:
            w = rng.choice((n, n, n, max(0, n - 1), n + 1, 0))
            s = bytes((rng.choice((0, 0, 0x21, 0x80)), rng.randrange(256), 1, 0, 0, 0, w % 256, w // 256)).hex()
            ls.append('control-out %s %d %s %s %s' % (num(a), rng.randrange(2), num(p), s, data(n)))
        elif r < .87: ls.append('control-none %s %d %s %s' % (num(a), rng.randrange(2), num(p), bytes((rng.choice((0, 0, 0x80)), 9, 1, 0, 0, 0, rng.choice((0, 0, 3)), 0)).hex()))
        elif r < .9: ls.append('patience %s' % num(rng.choice((1, 2, 3, 1000))))
        elif r < .93: ls.append('record')
        elif r < .95: ls.append(rng.choice(('# a comment', '', 'box in 3 -', 'box in 15 0102')))
        else: ls.append(bad_line(rng, a, e, p, k, t))
    ls.append('record')
    return ('\n'.join(ls) + ('\n' if rng.random() < .8 else '')).encode()

def bad_line(rng, a, e, p, k, t):
    good = rng.choice(('bulk-out %d %d %d %s %s aabb' % (a, e, p, k, t), 'bulk-in %d %d %d %s %s 2' % (a, e, p, k, t), 'control-in %d 0 %d 8006000200000200 2' % (a, p),
                       'control-out %d 0 %d 0006000200000200 aabb' % (a, p), 'control-none %d 1 %d 0009010000000000' % (a, p), 'cable ..x', 'box in %d 0102' % e, 'patience 5', 'record'))
    f = good.split(' ')
    how = rng.randrange(6)
    if how == 0: f[rng.randrange(len(f))] = rng.choice(('', '256', '65536', 'x', '-', '0x', 'abc', '1001', '131073', 'seq:3:1', 'seq:131073:0:0', 'seq:65:0:1', '16', '0', 'fixed', '999999999999999999999'))
    elif how == 1: f.insert(rng.randrange(len(f) + 1), '')
    elif how == 2: f.pop()
    elif how == 3: f.append('more')
    elif how == 4: f[0] = rng.choice(('lamp', 'Cable', 'bulk', 'box-in', ''))
    else: f[rng.randrange(len(f))] = rng.choice(('200', '128', '0', '65', '300', '16'))
    return ' '.join(f)

def main():
    if sys.argv[1] == 'play': sys.stdout.buffer.write(Machine().play(sys.stdin.buffer.read())); return
    if sys.argv[1] == 'show': sys.stdout.buffer.write(rnd_list(random.Random(int(sys.argv[2])))); return
    exe, count, seed = sys.argv[2], int(sys.argv[3]), int(sys.argv[4])
    tally = {}
    for i in range(count):
        l = rnd_list(random.Random(seed * 1000003 + i))
        want = Machine().play(l)
        got = subprocess.run([exe], input=l, capture_output=True, timeout=60).stdout
        for x in want.decode().split('\n'):
            m = re.match(r'answer (done|refused \d+|cancelled)|(line) \d+: expected|.* (lost)$|(WLG)', x)
            if m: k = next(y for y in m.groups() if y); tally[k] = tally.get(k, 0) + 1
        if got != want:
            open('diff.list', 'wb').write(l); open('diff.want', 'wb').write(want); open('diff.got', 'wb').write(got)
            print('difference at', i, '(seed %d)' % seed); sys.exit(1)
    print(count, 'plays, 0 differences', dict(sorted(tally.items())))
if __name__ == '__main__': main()
