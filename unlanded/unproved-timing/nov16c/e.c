#include <stdio.h>
#include <stdint.h>
#include <stdlib.h>
#include <string.h>
#include <time.h>
#include <stdbool.h>
typedef struct { bool horizontal; double pos; double width; } cribstork_stem;
uint64_t cribstork_convert(const uint8_t *charstring, size_t charstring_len, const uint8_t *bank, size_t bank_len,
 size_t len_iv, const double matrix[6], cribstork_stem *stems, size_t stems_len, uint64_t *commands, size_t commands_len,
 uint8_t *out, size_t out_len, uint64_t answer[4]);
static double now(void){struct timespec t;clock_gettime(CLOCK_MONOTONIC,&t);return t.tv_sec*1e9+t.tv_nsec;}
int main(int c,char**v){
 int S=c>1?atoi(v[1]):256,C=c>2?atoi(v[2]):256,O=c>3?atoi(v[3]):4096; long N=c>4?atol(v[4]):2000000;
 cribstork_stem*st=calloc(S+1,24);uint64_t*cm=calloc(14*C+1,8);uint8_t*out=calloc(O+1,1);
 double m[6]={1,0,0,1,0,0};uint64_t a[4];
 uint8_t g[]={139,139,13,14};uint8_t bk[6]={0};
 double best=1e18;
 for(int r=0;r<5;r++){double t=now();for(long i=0;i<N/5;i++)cribstork_convert(g,4,bk,6,0,m,st,S,cm,14*C,out,O,a);t=(now()-t)/(N/5);if(t<best)best=t;}
 printf("%d %d %d: %.1f ns number %lu len %lu\n",S,C,O,best,a[0],a[1]);
 best=1e18;
 for(int r=0;r<5;r++){double t=now();for(long i=0;i<N/5;i++){memset(st,0,24*S);memset(cm,0,112*C);memset(out,0,O);__asm__ volatile(""::"r"(st),"r"(cm),"r"(out):"memory");}t=(now()-t)/(N/5);if(t<best)best=t;}
 printf("memset %.1f ns\n",best);
}
