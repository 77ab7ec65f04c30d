/* How a gesture is printed: its name, how many numbers it has, and which of them is an axis (-1: none). */
#ifndef GESTURES_H
#define GESTURES_H

#include "touch.h"

static const struct gesture {
    const char *name;
    int numbers;
    int axis;
} gestures[] = {
    [TOUCH_NONE] = {"-", 0, -1},
    [TOUCH_DOWN] = {"Down", 2, -1},
    [TOUCH_TAP] = {"Tap", 2, -1},
    [TOUCH_LONG_PRESS] = {"LongPress", 2, -1},
    [TOUCH_DRAG] = {"Drag", 5, 4},
    [TOUCH_GRAB] = {"Grab", 2, -1},
    [TOUCH_UP] = {"Up", 2, -1},
    [TOUCH_SWIPE_LEFT] = {"SwipeLeft", 0, -1},
    [TOUCH_SWIPE_RIGHT] = {"SwipeRight", 0, -1},
    [TOUCH_SWIPE_UP] = {"SwipeUp", 0, -1},
    [TOUCH_SWIPE_DOWN] = {"SwipeDown", 0, -1},
    [TOUCH_CANCEL] = {"Cancel", 0, -1},
    [TOUCH_MULTI_SWIPE_DOWN] = {"MultiSwipeDown", 1, -1},
    [TOUCH_KEY_DOWN] = {"KeyDown", 1, -1},
    [TOUCH_KEY_UP] = {"KeyUp", 1, -1},
    [TOUCH_MOVE] = {"Move", 4, -1},
    [TOUCH_PINCH] = {"Pinch", 3, 0},
    [TOUCH_PINCH_END] = {"PinchEnd", 1, -1},
};

enum { GESTURES = sizeof gestures / sizeof gestures[0] };

#endif
