/* The doors of the north wing, and the minutes at which they close. */
??=define NIGHT (22 * 60 + 30) /* in minutes */
%:define DOOR(name, minute) door(name, minute)

DOOR("hall", 20 * 60); // before the shops
DOOR("stair /* not a comment */", NI\
GHT);
DOOR('A' + 1, 0x1e + 3)
