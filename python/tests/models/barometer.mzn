% How high is a building at least, by its shadow and that of a barometer? In millimetres.
var 300..320: barometer;
var 360..370: barometer_shadow;
var 54900..55100: shadow;
var 0..100000: height;
constraint barometer * shadow = barometer_shadow * height;
solve minimize height;
