p='$WORK/t/crates/type1_to_type2/src/lib.rt'
t=open(p).read()
t=t.replace('''    let mut finite = true;
    let mut groups = 0;
    let mut e = 0;
    while e < entries {
        finite = and(finite, check_entry(commands, e, m, identity));
        groups += starts_group(commands, e);
        e += 1;
    }
    Checked {
        finite: finite,
        groups: groups,
    }
}
''','''    let mut groups = 0;
    let mut e = 0;
    while e < entries {
        groups += starts_group(commands, e);
        e += 1;
    }
    Checked {
        finite: true,
        groups: groups,
    }
}

fn finite_points(commands: &[u64], entries: usize, m: Matrix, identity: bool) -> bool
{
    let mut e = 0;
    while e < entries {
        if !check_entry(commands, e, m, identity) { return false; }
        e += 1;
    }
    true
}

fn last_number(p: Plan, number: u64, commands: &[u64], entries: usize, m: Matrix, identity: bool) -> u64
{
    if p.number != 0 { return number; }
    if finite_points(commands, entries, m, identity) { number } else { 14 }
}
''')
t=t.replace('fn end_program(p: Plan, r: Interpreted, w: Writer, out: &mut [u8]) -> Type2Glyph','fn end_program(p: Plan, r: Interpreted, w: Writer, commands: &[u64], m: Matrix, identity: bool, out: &mut [u8]) -> Type2Glyph')
t=t.replace('''        return Type2Glyph {
            number: v.number,
            len: 0,''','''        return Type2Glyph {
            number: last_number(p, v.number, commands, r.entries, m, identity),
            len: 0,''')
t=t.replace('end_program(p, r, v, out)','end_program(p, r, v, commands, m, identity, out)')
open(p,'w').write(t)
