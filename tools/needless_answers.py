#!/usr/bin/env python3
"""Tells of each crate the answers that the check finds alone: it checks a crate without its Answers.antt, past holes, and puts them back.

    tools/needless_answers.py TREE [CRATE..]    TREE is a clone in which nothing else works meanwhile
"""
import glob,os,re,subprocess,sys
tree=sys.argv[1]; os.chdir(tree)
names=[l.split(":")[0].split()[0] for l in open("crates.txt") if ":" in l and not l.startswith("#")]
for name in sys.argv[2:] or names:
    files=sorted(glob.glob(f"crates/{name}/proofs/**/Answers.antt",recursive=True))
    if not files: continue
    kept={f:open(f).read() for f in files}
    try:
        for f in files: os.remove(f)
        log=subprocess.run(["rt","check","--allow-holes"],cwd="crates/"+name,stdin=subprocess.DEVNULL,stdout=subprocess.PIPE,stderr=subprocess.STDOUT,text=True,errors="replace").stdout
    finally:
        for f,t in kept.items(): open(f,"w").write(t)
    said={m[1].split("::",1)[1]:m[2] for m in re.finditer(r"^fn ([^\s:]+(?:::[^\s:]+)+): (.*)$",log,re.M)}
    for f,t in kept.items():
        place=f.split("/proofs/")[1][:-len("/Answers.antt")].replace("/","::")
        answers=re.findall(r"^pub ([\w+-]+) : goal\.",t,re.M)
        line=said.get(place)
        if line is None: print(name,place,"?",len(answers),"not named",flush=True); continue
        m=re.search(r"`search` did not prove (.*)$",line)
        if m:
            need=set(re.findall(r"`([^`]+)`",m[1]))
            free=[a for a in answers if a not in need]
        elif re.match(r"(no holes|proved)",line): need=set(); free=answers
        else: print(name,place,"?",len(answers),line[:100],flush=True); continue
        print(name,place,"free",len(free),"of",len(answers)," ".join(free),flush=True)
