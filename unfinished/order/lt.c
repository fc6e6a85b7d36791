#include <stdio.h>
#include <stdint.h>
#include <stdlib.h>
#include <time.h>
#include "nuxalder.h"
static uint8_t f[8][70000], rows[70000]; static size_t n[8];
static double now(void){ struct timespec t; clock_gettime(CLOCK_MONOTONIC,&t); return t.tv_sec*1e9+t.tv_nsec; }
int main(int c,char**v){ int p=atoi(v[1]); int k=c-2; uint64_t r[8]; for(int i=0;i<k;i++){FILE*h=fopen(v[2+i],"rb"); n[i]=fread(f[i],1,70000,h); fclose(h);} double best[8]; for(int i=0;i<k;i++)best[i]=1e18;
 int rep= n[0]<300?64:(n[0]<2000?16:4);
 for(int j=0;j<p;j++) for(int i=0;i<k;i++){ double a=now(); for(int q=0;q<rep;q++) nuxalder_run(f[i],n[i],rows,sizeof rows,(void*)r); double b=(now()-a)/rep; if(b<best[i])best[i]=b; }
 double s=0; for(int i=0;i<k;i++)s+=best[i]; printf("%.0f",s/k); }
