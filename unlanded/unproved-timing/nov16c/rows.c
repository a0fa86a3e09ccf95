#include <stdio.h>
#include <stdint.h>
#include <stdlib.h>
#include <string.h>
#include <stdbool.h>
typedef struct { bool horizontal; double pos; double width; } cribstork_stem;
uint64_t cribstork_convert(const uint8_t *, size_t, const uint8_t *, size_t, size_t, const double[6], cribstork_stem *, size_t, uint64_t *, size_t, uint8_t *, size_t, uint64_t[4]);
uint64_t cribstork_finish(double width, const uint8_t *program, size_t program_len, double d, double n, uint8_t *out, size_t out_len, uint64_t answer[2]);
uint64_t cribstork_choose_widths(const double *widths, size_t n, double *scratch, size_t scratch_len, double pair[2]);
uint64_t cribstork_decrypt(const uint8_t *data, size_t n, size_t len_iv, uint8_t *out, size_t out_len, uint64_t answer[2]);
static double I[6]={1,0,0,1,0,0};
static void run(const char*name,const uint8_t*g,size_t n,size_t stems,size_t entries,size_t outl,double*m,const uint8_t*bk,size_t bl){
 cribstork_stem*st=calloc(stems+1,24);uint64_t*cm=calloc(14*entries+1,8);uint8_t*out=calloc(outl+1,1);uint64_t a[4];
 cribstork_convert(g,n,bk,bl,~(size_t)0,m,st,stems,cm,14*entries,out,outl,a);
 printf("%s: number %lu len %lu ran %lu\n",name,a[0],a[1],a[3]);free(st);free(cm);free(out);}
int main(){uint8_t b0[6]={0},b1[2]={0,1};uint8_t g[4000];size_t n=0;
 memset(g,0x8b,254);n=254;memcpy(g+n,"\xf7\x92\x8f\x0c\x10",5);n+=5;size_t n1=n;memcpy(g+n,"\x8b\x8b\x8b\x8e\x8f\x0c\x10",7);n+=7;
 run("ps 254",g,n1,256,256,4096,I,b0,6);run("ps 257",g,n,256,256,4096,I,b0,6);
 n=0;for(int i=0;i<257;i++){if(i%2==0){memcpy(g+n,"\x8b\x8c\x01\x8c\x16",5);n+=5;}else{memcpy(g+n,"\x8b\x8e\x0c\x10\x8c\x16",6);n+=6;} if(i==255)n1=n;}
 printf("%zu bytes\n",n);run("256 groups",g,n1,1024,514,4096,I,b0,6);run("257 groups",g,n,1024,514,4096,I,b0,6);
 run("stem store 0",(uint8_t*)"\x8b\x8c\x01\x8c\x16",5,0,256,4096,I,b0,6);
 run("bank 00 01",g,0,256,256,4096,I,b1,2);run("empty, out 0",g,0,256,256,0,I,b0,6);
 n=0;g[n++]=0x8c;for(int i=0;i<40;i++){memcpy(g+n,"\x8c\xff\x7f\xff\xff\xff\x0c\x0c\x0c\x0c",10);n+=10; if(i==32)n1=n;}
 run("div 33",g,n1,256,256,4096,I,b0,6);run("div 34",g,n1+10,256,256,4096,I,b0,6);run("div 40",g,n,256,256,4096,I,b0,6);
 double m[6]={1e308,0,0,1,0,0};run("EF 16",(uint8_t*)"\xef\x16",2,256,256,4096,m,b0,6);
 uint64_t a2[2];uint8_t o[4]={1,1,1,1};printf("finish %lu\n",cribstork_finish(0,(uint8_t*)"\x0e",1,0,0,o,0,a2));
 double w=0,sc[2],pr[2];printf("choose %lu %g %g\n",cribstork_choose_widths(&w,1,sc,0,pr),pr[0],pr[1]);
 printf("decrypt %lu\n",cribstork_decrypt((uint8_t*)"\0",1,0,o,0,a2));
}
