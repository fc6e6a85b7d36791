#include <stdio.h>
#include <stdint.h>
#include <stdlib.h>
#include <string.h>
#include <time.h>
typedef uint8_t u8; typedef uint64_t u64;
void a_run(const u8*,size_t,u8*,size_t,u64*); void b_run(const u8*,size_t,u8*,size_t,u64*);
static double now(){struct timespec t;clock_gettime(CLOCK_MONOTONIC,&t);return t.tv_sec*1e9+t.tv_nsec;}
static u8 *f[32]; static size_t len[32];
static int cmp(const void*a,const void*b){double x=*(double*)a,y=*(double*)b;return x<y?-1:x>y;}
int main(int c,char**v){ int sz[]={1,16,256,1024,4096}; u64 s=0; for(int w=1;w<c;w++){ int ver=atoi(v[w]); printf("v%d ",ver); for(int q=0;q<5;q++){ int N=sz[q]; for(int i=0;i<32;i++){ char nm[99]; sprintf(nm,"/work/t/speed/files/v%d-%d-%d",ver,N,i); FILE*h=fopen(nm,"rb"); f[i]=malloc(16400); len[i]=fread(f[i],1,16400,h); fclose(h);}
 size_t room=(ver==1?2:7)*N; u8*r1=calloc(room+8,1),*r2=calloc(room+8,1); int rounds=N==1?150:N==16?80:N==256?10:N==1024?3:1; enum{S=101}; static double a[S],b[S];
 for(int k=0;k<S;k++){ u64 r[6]; double t0=now(); for(int j=0;j<rounds;j++) for(int i=0;i<32;i++){ a_run(f[i],len[i],r1,room,r); s+=r[3]; } double t1=now(); for(int j=0;j<rounds;j++) for(int i=0;i<32;i++){ b_run(f[i],len[i],r2,room,r); s+=r[3]; } double t2=now(); a[k]=(t1-t0)/rounds/32; b[k]=(t2-t1)/rounds/32; }
 qsort(a,S,8,cmp); qsort(b,S,8,cmp); printf(" %d: %.1f %.1f %.3f",N,a[S/4],b[S/4],b[S/4]/a[S/4]); for(int i=0;i<32;i++) free(f[i]); free(r1);free(r2);} puts(""); } return s==1; }
