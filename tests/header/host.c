/* Runs the firmware and prints its log: host HOW */
#include <stdint.h>
#include <stdio.h>
#include <stdlib.h>

extern char firmware_log[];
extern volatile uint32_t firmware_register;
extern union firmware_memory { volatile uint32_t word[4]; volatile uint64_t pair[2]; } firmware_memory;
int firmware_main(int how);

int main(int argc, char **argv)
{
	int locked = firmware_main(argc == 2 ? atoi(argv[1]) : 0);
	const volatile unsigned char *bytes = (const volatile unsigned char *)&firmware_memory;

	fputs(firmware_log, stdout);
	printf("%s, %u, ", locked > 0 ? "locked" : "not locked", (unsigned int)firmware_register);
	printf("%02x%02x%02x%02x\n", bytes[0], bytes[1], bytes[2], bytes[3]);
	return 0;
}
