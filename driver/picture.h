/* The picture of a request, by all calls that have to do with pictures and texts. */
#ifndef PICTURE_H
#define PICTURE_H

void answer_picture(void);

#endif
