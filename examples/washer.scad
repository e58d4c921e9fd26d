// bcsg 2 contour
// box -21 -21 21 21
union() {
  // own 7 -7 1
  difference() {
    intersection() {
      translate([-21,-21,0]) square([42,42]);
      // out 15 -15 1
      translate([0,0,0]) circle(r=sqrt(400));
    }
    // out 21 -21 5
    translate([0,0,0]) circle(r=sqrt(64));
  }
}
