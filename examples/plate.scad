// bcsg 2 contour
// box -1 -1 41 21
union() {
  // own 155 35 4
  difference() {
    intersection() {
      translate([-1,-1,0]) square([42,22]);
      // out 75 -2 3
      translate([-8187,0,0]) square([16384,8192]);
      // out 155 5 4
      multmatrix([[1,-1,0,35],[1,1,0,0],[0,0,1,0],[0,0,0,1]]) translate([-8192,0,0]) square([16384,8192]);
      // out 122 25 3
      translate([-8152,-8187,0]) square([8192,16384]);
      // out 5 5 4
      multmatrix([[1,1,0,0],[-1,1,0,5],[0,0,1,0],[0,0,0,1]]) translate([-8192,0,0]) square([16384,8192]);
    }
    // out 155 75 4
    multmatrix([[1,1,0,40],[-1,1,0,15],[0,0,1,0],[0,0,0,1]]) translate([-8192,0,0]) square([16384,8192]);
    // out 75 62 3
    translate([-8157,20,0]) square([16384,8192]);
    // out 5 75 4
    multmatrix([[1,-1,0,5],[1,1,0,20],[0,0,1,0],[0,0,0,1]]) translate([-8192,0,0]) square([16384,8192]);
    // out -2 35 3
    translate([-8192,-8177,0]) square([8192,16384]);
    // out 75 65 6
    translate([12,10,0]) circle(r=sqrt(9));
    // out 80 25 3
    translate([28,10,0]) circle(r=sqrt(9));
  }
  // own 115 5 3
  difference() {
    intersection() {
      translate([-1,-1,0]) square([42,22]);
      // out 6 -2 3
      translate([35,5,0]) circle(r=sqrt(25));
    }
  }
  // own 115 55 3
  difference() {
    intersection() {
      translate([-1,-1,0]) square([42,22]);
      // out 6 -2 3
      translate([35,15,0]) circle(r=sqrt(25));
    }
  }
  // own 5 55 3
  difference() {
    intersection() {
      translate([-1,-1,0]) square([42,22]);
      // out 6 -2 3
      translate([5,15,0]) circle(r=sqrt(25));
    }
  }
  // own 5 5 3
  difference() {
    intersection() {
      translate([-1,-1,0]) square([42,22]);
      // out 6 -2 3
      translate([5,5,0]) circle(r=sqrt(25));
    }
  }
}
