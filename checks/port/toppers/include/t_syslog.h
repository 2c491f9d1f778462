/* t_syslog.h: a stub of the header of TOPPERS' log, for checks. */
#ifndef TOPPERS_T_SYSLOG_H
#define TOPPERS_T_SYSLOG_H

#include <kernel.h>

#define LOG_ERROR 3U
#define LOG_NOTICE 5U

extern void syslog(uint_t prio, const char *format, ...);

#endif
