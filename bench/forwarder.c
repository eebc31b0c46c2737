// The least work with which SIP can be forwarded: what 127.0.0.1:5260 receives from 127.0.0.1:5072 goes to 127.0.0.1:5071, all else to 127.0.0.1:5072, unread.
// It waits, receives and sends with one system call each, as the server does for its datagrams. bench/measure compiles and starts it.
#include <arpa/inet.h>
#include <poll.h>
#include <sys/socket.h>

static struct sockaddr_in at(int port) {
  struct sockaddr_in it = {.sin_family = AF_INET, .sin_port = htons(port), .sin_addr = {htonl(INADDR_LOOPBACK)}};
  return it;
}

int main(void) {
  static char bytes[65536];
  struct sockaddr_in own = at(5260), caller = at(5071), callee = at(5072), from;
  struct pollfd heard = {.fd = socket(AF_INET, SOCK_DGRAM, 0), .events = POLLIN};
  if (heard.fd < 0 || bind(heard.fd, (struct sockaddr *)&own, sizeof own)) return 4;
  while (poll(&heard, 1, -1) >= 0) {
    socklen_t size = sizeof from;
    ssize_t length;
    while ((length = recvfrom(heard.fd, bytes, sizeof bytes, MSG_DONTWAIT, (struct sockaddr *)&from, &size)) >= 0)
      sendto(heard.fd, bytes, length, 0, (struct sockaddr *)(from.sin_port == callee.sin_port ? &caller : &callee), sizeof own);
  }
  return 4;
}
