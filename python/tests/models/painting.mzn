% How long may a floor be whose painting is within a budget? In centimetres.
var 400..400: width;
var 500..550: length;
var 0..1000: cost;
constraint cost = width * length * 30 div 10000;
constraint cost <= 630;
solve maximize length;
