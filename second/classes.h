/* The four classes covered. */
#ifndef CLASSES_H
#define CLASSES_H

#define VERIFICATION_CLASS "1.2.840.10008.1.1"
#define SESSION_CLASS "1.2.840.10008.5.1.1.1"
#define FILM_CLASS "1.2.840.10008.5.1.1.2"
#define BOX_CLASS "1.2.840.10008.5.1.1.4"

#endif
