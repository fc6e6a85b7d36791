#include <stdio.h>
#include <stdint.h>
#include <stdlib.h>
void nuxalder_run(const uint8_t*,size_t,uint8_t*,size_t,uint64_t*);
static uint8_t f[32][16400]; static size_t len[32]; static uint8_t rows[28672];
int main(int c,char**v){ int ver=atoi(v[1]),N=atoi(v[2]),k=atoi(v[3]); for(int i=0;i<32;i++){char nm[99]; sprintf(nm,"/work/t/speed/files/v%d-%d-%d",ver,N,i); FILE*h=fopen(nm,"rb"); len[i]=fread(f[i],1,16400,h); fclose(h);} uint64_t r[6],s=0; for(int j=0;j<k;j++)for(int i=0;i<32;i++){ nuxalder_run(f[i],len[i],rows,sizeof rows,r); s+=r[1]+r[3]; } printf("%llu\n",(unsigned long long)s); }
