#include <stdio.h>
#include <stdint.h>
#include <stdlib.h>
#include <string.h>
#include <time.h>
#include <stdbool.h>
typedef struct { bool horizontal; double pos; double width; } cribstork_stem;
uint64_t cribstork_convert(const uint8_t *charstring, size_t charstring_len, const uint8_t *bank, size_t bank_len,
 size_t len_iv, const double matrix[6], cribstork_stem *stems, size_t stems_len, uint64_t *commands, size_t commands_len,
 uint8_t *out, size_t out_len, uint64_t answer[4]);
static double now(void){struct timespec t;clock_gettime(CLOCK_MONOTONIC,&t);return t.tv_sec*1e9+t.tv_nsec;}
int main(int c,char**v){
 int stems=atoi(v[1]),groups=atoi(v[2]); long N=atol(v[3]);
 size_t S=groups*stems>256?groups*stems:256,C=2*groups+1>256?2*groups+1:256,O=40*groups>4096?40*groups:4096;
 cribstork_stem*st=calloc(S+1,24);uint64_t*cm=calloc(14*C+1,8);uint8_t*out=calloc(O+1,1);
 double m[6]={1,0,0,1,0,0};uint64_t a[4];uint8_t bk[6]={0};
 uint8_t*g=malloc(groups*(stems*3+8)+10);size_t n=0;
 for(int q=0;q<groups;q++){memcpy(g+n,"\x8b\x8e\x0c\x10",4);n+=4;for(int i=0;i<stems;i++){g[n++]=0x8b+(q*7+i*2)%96;g[n++]=0x8c;g[n++]=1;}g[n++]=0x8c;g[n++]=0x8d;g[n++]=5;}
 double best=1e18;
 for(int r=0;r<5;r++){double t=now();for(long i=0;i<N/5;i++)cribstork_convert(g,n,bk,6,~(size_t)0,m,st,S,cm,14*C,out,O,a);t=(now()-t)/(N/5);if(t<best)best=t;}
 printf("%d stems %d groups: %.0f ns, %.0f each; number %lu len %lu\n",stems,groups,best,best/groups,a[0],a[1]);
}
