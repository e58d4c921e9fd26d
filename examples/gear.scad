// bcsg 2 contour
// box -80 -80 80 80
union() {
  // own 541 -46 7
  difference() {
    intersection() {
      translate([-80,-80,0]) square([160,160]);
      // out 43 -154 2
      translate([63,0,0]) circle(r=sqrt(256));
    }
  }
  // own -70 -182 3
  difference() {
    intersection() {
      translate([-80,-80,0]) square([160,160]);
      // out 43 -154 2
      translate([0,0,0]) circle(r=sqrt(4225));
    }
    // out -7 113 6
    translate([0,0,0]) circle(r=sqrt(400));
  }
  // own 331 284 6
  difference() {
    intersection() {
      translate([-80,-80,0]) square([160,160]);
      // out 43 -154 2
      translate([45,45,0]) circle(r=sqrt(265));
    }
  }
  // own 32 782 11
  difference() {
    intersection() {
      translate([-80,-80,0]) square([160,160]);
      // out 43 -154 2
      translate([0,63,0]) circle(r=sqrt(256));
    }
  }
  // own -284 331 6
  difference() {
    intersection() {
      translate([-80,-80,0]) square([160,160]);
      // out 43 -154 2
      translate([-45,45,0]) circle(r=sqrt(265));
    }
  }
  // own -782 32 11
  difference() {
    intersection() {
      translate([-80,-80,0]) square([160,160]);
      // out 43 -154 2
      translate([-63,0,0]) circle(r=sqrt(256));
    }
  }
  // own -331 -284 6
  difference() {
    intersection() {
      translate([-80,-80,0]) square([160,160]);
      // out 43 -154 2
      translate([-45,-45,0]) circle(r=sqrt(265));
    }
  }
  // own -32 -782 11
  difference() {
    intersection() {
      translate([-80,-80,0]) square([160,160]);
      // out 43 -154 2
      translate([0,-63,0]) circle(r=sqrt(256));
    }
  }
  // own 268 -268 5
  difference() {
    intersection() {
      translate([-80,-80,0]) square([160,160]);
      // out 43 -154 2
      translate([45,-45,0]) circle(r=sqrt(265));
    }
  }
}
