/* Coverage of the engine's machine code, which was compiled without any. */
#ifndef COVERAGE_H
#define COVERAGE_H

void coverage_start(const char *program);
void coverage_print(void);

#endif
