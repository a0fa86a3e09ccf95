#include <stdio.h>
#include <string.h>
#include <stdlib.h>
#include <time.h>
#include <emmintrin.h>
static double now(){struct timespec a;clock_gettime(CLOCK_MONOTONIC,&a);return a.tv_sec*1e9+a.tv_nsec;}
__attribute__((noinline)) void sse(char*p,long n){__m128i z=_mm_setzero_si128();for(long i=0;i+64<=n;i+=64){_mm_storeu_si128((void*)(p+i),z);_mm_storeu_si128((void*)(p+i+16),z);_mm_storeu_si128((void*)(p+i+32),z);_mm_storeu_si128((void*)(p+i+48),z);__asm__ volatile(""::"r"(p):"memory");}}
__attribute__((noinline)) void chunks(char*p,long n){for(long i=0;i<n;i+=1024)memset(p+i,0,n-i<1024?n-i:1024);}
__attribute__((noinline)) void w8(unsigned long*p,long n){for(long i=0;i<n/8;i++){p[i]=0;__asm__ volatile(""::"r"(p):"memory");}}
typedef void(*F)(char*,long);
static void ms(char*p,long n){memset(p,0,n);}
int main(){
 char*c=malloc(28672+64),*o=malloc(4096+64),*s=malloc(6144+64),*own=malloc(32768);
 F fs[]={ms,sse,chunks,(F)w8};const char*nm[]={"memset","sse","chunks1024","words"};
 for(int own_kb=0;own_kb<=16;own_kb+=4)
 for(int k=0;k<4;k++){
  double best=1e9;
  for(int r=0;r<50;r++){double a=now();for(int i=0;i<200;i++){fs[k](c,28672);fs[k](o,4096);fs[k](s,6144);if(own_kb)fs[k](own,own_kb*1024);__asm__ volatile(""::: "memory");}double b=(now()-a)/200;if(b<best)best=b;}
  printf("own %d KB %s %.0f ns (%.1f B/cycle)\n",own_kb,nm[k],best,(38912+own_kb*1024)/(best*2.9));
 }}
