#include <stdio.h>
#include <stdint.h>
#include <stdlib.h>
#include <string.h>
#include <time.h>
#include <emmintrin.h>
static double now(void){struct timespec t;clock_gettime(CLOCK_MONOTONIC,&t);return t.tv_sec*1e9+t.tv_nsec;}
static inline uint32_t be(const uint8_t*p){uint32_t v;memcpy(&v,p,4);return __builtin_bswap32(v);}
static inline uint64_t be8(const uint8_t*p){uint64_t v;memcpy(&v,p,8);return __builtin_bswap64(v);}
__attribute__((noinline)) int cur(const uint8_t*p,long n){uint32_t b=0;long i=0;for(;i+4<=n;i+=4){uint32_t x=be(p+4*i),y=be(p+4*i+4),z=be(p+4*i+8),w=be(p+4*i+12);if(x<b)return 0;if(y<x)return 0;if(z<y)return 0;if(w<z)return 0;b=w;}for(;i<n;i++){uint32_t x=be(p+4*i);if(x<b)return 0;b=x;}return 1;}
__attribute__((noinline)) int cur8(const uint8_t*p,long n){uint32_t b=0;long i=0;for(;i+8<=n;i+=8){uint32_t a[8];for(int k=0;k<8;k++){a[k]=be(p+4*i+4*k);if(a[k]<(k?a[k-1]:b))return 0;}b=a[7];}for(;i<n;i++){uint32_t x=be(p+4*i);if(x<b)return 0;b=x;}return 1;}
__attribute__((noinline)) int pair(const uint8_t*p,long n){uint64_t r=0;long i=0;for(;i+4<=n;i+=4){uint64_t x=be8(p+4*i),y=be8(p+4*i+8);if(x<r)return 0;r=(x<<32)|(x>>32);if(r<x)return 0;if(y<r)return 0;r=(y<<32)|(y>>32);if(r<y)return 0;}return 1;}
// sse2, words: swap bytes in words, then compare dwords after word swap
__attribute__((noinline)) int sse(const uint8_t*p,long n){__m128i acc=_mm_setzero_si128(),sg=acc;long i=0;__m128i A=_mm_loadu_si128((void*)p);
#define SW(v) ({__m128i t=_mm_or_si128(_mm_slli_epi16(v,8),_mm_srli_epi16(v,8));_mm_shufflehi_epi16(_mm_shufflelo_epi16(t,0xB1),0xB1);})
A=SW(A);
for(;i+8<=n;i+=4){__m128i B=_mm_loadu_si128((void*)(p+4*i+16));B=SW(B);
 __m128i s=_mm_castps_si128(_mm_move_ss(_mm_castsi128_ps(A),_mm_castsi128_ps(B)));s=_mm_shuffle_epi32(s,0x39);
 acc=_mm_or_si128(acc,_mm_cmpgt_epi32(A,s));sg=_mm_or_si128(sg,A);A=B;}
return _mm_movemask_epi8(acc)==0&&_mm_movemask_ps(_mm_castsi128_ps(sg))==0;}
// bytes compare: high bytes as they are
__attribute__((noinline)) int sub(const uint8_t*p,long n){uint64_t b=0,acc=0;long i=0;for(;i+4<=n;i+=4){uint64_t x=be(p+4*i),y=be(p+4*i+4),z=be(p+4*i+8),w=be(p+4*i+12);acc=(x-b)|(y-x)|(z-y)|(w-z);if((int64_t)acc<0)return 0;b=w;}return 1;}
// 64-bit: D = Y - X with loads at p and p+4
__attribute__((noinline)) int swar(const uint8_t*p,long n){uint64_t acc=0;long i=0;for(;i+3<=n;i+=2){uint64_t x=be8(p+4*i),y=be8(p+4*i+4);acc|=(y-x)|x;}return (acc&0x8000000080000000ull)==0;}
int main(){long n=1500;uint8_t*b=malloc(4*n+64);uint32_t o=0;for(long i=0;i<n;i++){o+=rand()%60;b[4*i]=o>>24;b[4*i+1]=o>>16;b[4*i+2]=o>>8;b[4*i+3]=o;}
 int(*f[])(const uint8_t*,long)={cur,cur8,pair,sse,sub,swar};const char*nm[]={"cur","cur8","pair","sse","sub","swar"};
 for(int rep=0;rep<2;rep++)for(int k=0;k<6;k++){double best=1e18;int r=0;for(int q=0;q<20;q++){double t=now();for(int i=0;i<2000;i++){r+=f[k](b,n);__asm__ volatile(""::: "memory");}t=(now()-t)/2000;if(t<best)best=t;}printf("%s %.1f ns (%.3f ns/offset) %d\n",nm[k],best,best/n,r);}
}
