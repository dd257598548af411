import sys,os,types
root='/work/gate-r17'
sys.path.insert(0,root+'/compare'); sys.path.insert(0,root+'/tools')
sys.dont_write_bytecode=True
import calling
class P:
    def __init__(self,name): pass
calling.Program.__init__=lambda self,name: None
which=sys.argv[1]; count=int(sys.argv[2])
import importlib
if which=='layers':
    import layers
    class C(layers.Comparison):
        def make(self,what,n,samples,summary):
            wanted=list(summary)
            r=layers.reference.make_summary(n,samples,wanted)
            self.made[layers.told(r)[0]]+=1
            return wanted
        def change(self,what,n,samples,point,pattern,summary):
            w=list(samples),list(summary)
            r=layers.reference.set_sample(n,w[0],point,pattern,w[1])
            self.set[layers.told(r)[0]]+=1
            return w
    c=C()
    for s in range(count): c.seed(s)
    print(sum(c.made.values()),sum(c.set.values()),sorted(c.made.items()),sorted(c.set.items()))
else:
    import layered,random
    from collections import Counter
    met=Counter(); over=0
    for s in range(count):
        chance=random.Random(s)
        call=layered.LayeredCall(chance)
        for _ in range(chance.choice([0,0,0,0,1,2])): call.damage(chance)
        right=call.wanted(call.summary)
        met[right[0][0]]+=1
        if right[0][0]==0: over+=len(layered.reference.layers_over(call.block(),call.summary))
    print(count,over,sorted(met.items()))
