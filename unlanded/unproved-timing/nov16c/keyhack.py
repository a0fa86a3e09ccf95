import re,sys
src,dst,mode=sys.argv[1:4]
t=open(src).read()
a=t.index('define internal noundef i16 @"charstring::next_key"'); b=t.index('\n}\n',a)+3
body={'asm':'''define internal noundef i16 @"charstring::next_key"(i8 noundef %a0, i16 noundef %a1) #0 {
start:
  %c = zext i8 %a0 to i32
  %m = mul i32 %c, 52845
  %d = add i32 %m, 22719
  %o = call i32 asm "", "=r,0"(i32 %d)
  %k = zext i16 %a1 to i32
  %p = mul i32 %k, 52845
  %s = add i32 %p, %o
  %r = trunc i32 %s to i16
  ret i16 %r
}
''','tab':'''define internal noundef i16 @"charstring::next_key"(i8 noundef %a0, i16 noundef %a1) #0 {
start:
  %c = zext i8 %a0 to i64
  %g = getelementptr inbounds [256 x i16], ptr @KT, i64 0, i64 %c
  %o = load i16, ptr %g, align 2
  %p = mul i16 %a1, -12691
  %s = add i16 %p, %o
  ret i16 %s
}
'''}[mode]
t=t[:a]+body+t[b:]
if mode=='tab':
    vals=', '.join('i16 %d'%(((c*52845+22719)%65536) if ((c*52845+22719)%65536)<32768 else ((c*52845+22719)%65536)-65536) for c in range(256))
    i=t.index('\ndefine ')
    t=t[:i]+'\n@KT = internal constant [256 x i16] ['+vals+']\n'+t[i:]
if len(sys.argv)>4: # always step
    a=t.index('define internal noundef i16 @"type1::key_after"'); b=t.index('\n}\n',a)+3
    t=t[:a]+'''define internal noundef i16 @"type1::key_after"(i8 noundef %a0, i16 noundef %a1, i1 noundef zeroext %a2) #0 {
start:
  %r6 = call i16 @"charstring::next_key"(i8 %a0, i16 %a1)
  ret i16 %r6
}
'''+t[b:]
open(dst,'w').write(t)
