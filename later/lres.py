import re,sys,pathlib
rx=re.compile(r'<<<<<<< HEAD\n(.*?)=======\n(.*?)>>>>>>> layers-old\n',re.S)
def go(f,rules):
    t=pathlib.Path(f).read_text(); n=[0]
    def sub(m):
        r=rules[n[0]] if n[0]<len(rules) else rules[-1]; n[0]+=1
        a,b=m.group(1),m.group(2)
        if callable(r): return r(a,b)
        return {'b':a+b,'o':a,'bn':a+'\n'+b}[r]
    t=rx.sub(sub,t); pathlib.Path(f).write_text(t); print(f,n[0],'left' if '<<<<<<<' in t else '')
go('README.md',['b'])
go('bindings/c/check.sh',[lambda a,b:a.replace('check_whole','check_whole check_layers')])
go('bindings/c/stack.c',[lambda a,b:b.split('    for (k')[0]+a])
go('bindings/rust/src/lib.rs',[lambda a,b:"""//! writes a mesh as an STL file and reads one. [`weld()`] takes out the vertices that were made twice,
//! by the grid edges that [`extract_whole`] tells; [`Mesher::welded`] does both. [`Summary`] keeps the
//! least and the greatest sample of each layer of a block whose samples change.
""",lambda a,b:"""    most_reads, most_triangles, most_vertices, neighbours_length, record_length, sample_length,
    sample_place, stl_length, store_length, summary_length, MOST_SUBDIVISIONS, RECORD_HEADER,
    STL_HEADER,
""",lambda a,b:b+a])
go('bindings/rust/src/linked.rs',['b'])
go('bindings/rust/src/refusals.rs',['b'])
go('compare/README.md',['b',lambda a,b:a.replace('the calls for a sample','those for summaries, the calls for a sample'),'b'])
go('compare/ours/run',['o'])
go('crates.txt',[lambda a,b:a.replace('weights:','layers: cases judge grid model tables laws\nweights:',1).replace('viewer record weld stl judge','viewer record weld stl layers judge'),lambda a,b:a.replace('finer weld stl','finer weld layers stl')])
go('crates/judge/src/lib.rt',['b'])
go('crates/model/specs/Lib.antt',['b'])
go('crates/model/specs/Refusals.antt',[lambda a,b:a.replace('EdgesTooShort','EdgesTooShort, LayerDiffers'),'b'])
go('crates/model/src/lib.rt',['b'])
go('crates/promises/specs/Kept.antt',['b'])
go('crates/promises/specs/Lib.antt',['b'])
go('crates/promises/specs/Promises.antt',['o','b','o','b'])
go('crates/sirveshan/proofs/Pinned.antt',['b','bn'])
go('crates/sirveshan/specs/Calls.antt',['b','bn','bn'])
go('crates/sirveshan/src/lib.rt',[lambda a,b:a.replace('use Rattle·sirveshan','use Rattle·layers.specs.Definition.{makeSummary, setSample};\nghost use Rattle·sirveshan',1)+'ghost use Rattle·sirveshan·specs.specs.Calls.{asJudged, makeCall, setCall};\n',
  lambda a,b:a+'    }\n}\n\n'+b, lambda a,b:a+'}\n\n'+b])
go('crates/viewer/specs/Packed.antt',[lambda a,b:a.replace('EdgesTooShort','EdgesTooShort, LayerDiffers'),'b'])
go('docs/API.md',['b'])
go('docs/refusals.tsv',['b'])
go('tools/check-all',['b'])
go('tools/test_reference.py',[lambda a,b:a+'\n\n'+b])
