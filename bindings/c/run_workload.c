/*
 * Runs a workload from standard input by a client, and prints the reply to each command, as `changecap run` does.
 * The status is 1 where a line is not one command, and 3 where memory runs out.
 */
#include "changecap.h"

#include <stdio.h>
#include <stdlib.h>
#include <string.h>

static int is_ignored(const char *line, size_t n){
  size_t blanks = 0;
  while( blanks < n && line[blanks] == ' ' ) blanks++;
  return blanks == n || line[0] == '#';
}

int main(void){
  changecap_client client = CHANGECAP_CLOSED;
  changecap_fault fault;
  char *line = NULL;
  uint8_t *reply = NULL;
  size_t room = 0, reply_room = 0, len;
  ssize_t n;
  int status = 0;
  if( changecap_open(&client) != CHANGECAP_OK ) return 3;
  while( status == 0 && (n = getline(&line, &room, stdin)) > 0 ){
    if( line[n - 1] == '\n' ) n--;
    if( is_ignored(line, (size_t)n) ) continue;
    uint32_t answer = changecap_call(&client, line, (size_t)n, &fault);
    if( answer == CHANGECAP_COMMAND ){
      fprintf(stderr, "G%u at %zu\n", fault.kind, fault.at);
      status = 1;
    }else if( answer != CHANGECAP_OK && answer != CHANGECAP_REFUSED ){
      status = 3;
    }else{
      while( changecap_reply(&client, reply, reply_room, &len) == CHANGECAP_ROOM ){
        reply = realloc(reply, len);
        reply_room = len;
        if( reply == NULL ) return 3;
      }
      fwrite(reply, 1, len, stdout);
      putchar('\n');
    }
  }
  changecap_close(&client);
  free(line);
  free(reply);
  return status;
}
