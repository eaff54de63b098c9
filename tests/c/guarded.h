/* A page between two pages without access: the processor stops a load or a store outside it, whoever makes it. */
#include <stddef.h>
#include <stdint.h>

enum { PAGE = 4096 };

/* Where an area stands in its page: right behind the page in front, or right before the page behind. */
typedef enum { AT_FRONT, AT_BACK } place;

/* A new page; it can be read and written. */
uint8_t *guarded_page(void);

/* Where an area of the length begins. */
uint8_t *placed(uint8_t *page, size_t length, place at);

/* Whether stores into the page are stopped too. */
void read_only(uint8_t *page, int stopped);

/* From now on, where an access is stopped the process says the text, as it then stands, and ends with 1. */
void on_stopped_access(const char *text);
