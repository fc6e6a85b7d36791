#include <stdio.h>
#include <stdint.h>
#include <stdlib.h>
#include <string.h>
#include <time.h>
static double now(){struct timespec t;clock_gettime(CLOCK_MONOTONIC,&t);return t.tv_sec*1e9+t.tv_nsec;}
void *(*volatile ms)(void*,int,size_t)=memset;
int main(){ char*p=aligned_alloc(4096,1<<20); int off[]={0,8,16,32,40,24}; int sz[]={2048,2080,4096,6144,8192}; for(int s=0;s<5;s++){ printf("%d:",sz[s]); for(int o=0;o<6;o++){ double best=1e9; for(int r=0;r<50;r++){ double t=now(); for(int i=0;i<1000;i++) ms(p+off[o],0,sz[s]); t=(now()-t)/1000; if(t<best)best=t; } printf("  +%d %.1f",off[o],best);} puts(""); } }
