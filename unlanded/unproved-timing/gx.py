import sys
fl=sys.argv[2].split(',')
sys_argv=sys.argv
exec(open('$WORK/tc/%s.py'%sys.argv[1]).read().replace("exec(open('$WORK/tc/var.py').read().split(\"t=load('type1')\")[0])","sys.argv=['x','none']\nexec(open('$WORK/tc/var.py').read().split(\"t=load('type1')\")[0])"))
flags=set(fl)
exec("t=load('type1_to_type2')"+open('$WORK/tc/var.py').read().split("t=load('type1_to_type2')")[1])
